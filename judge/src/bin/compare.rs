//! Compares the proved library with the independent second program on generated cases: every entry, every output, every byte of every lent area.
//! `compare [CASES [SEED]]`: at least 20,000 cases by default; the seed is printed, and a difference names its case.

use second::cases::{self, Rng};

struct Tally {
    accepted: usize,
    refused: usize,
    ticks: u64,
}

impl Tally {
    fn count(&mut self, number: u8, ticks: u64) {
        if number == 0 {
            self.accepted += 1;
            self.ticks += ticks;
        } else {
            self.refused += 1;
        }
    }
}

fn bus(seed: u64, mut ours: cases::BusCase, tally: &mut Tally) {
    let mut theirs = ours.clone();
    let case = ours.clone();
    let want = theirs.run();
    let got = bilvakront::bus_run(
        &ours.list, ours.marks, &mut ours.memory, &mut ours.states, &ours.holds, ours.asked, &mut ours.results, &mut ours.trace,
    );
    assert_eq!((got.number, got.ticks), (want.number, want.ticks), "whole-bus run, seed {seed}: {case:?}");
    assert!(ours == theirs, "whole-bus run, areas differ, seed {seed}: {case:?}");
    tally.count(want.number, want.ticks);
}

fn plain(seed: u64, mut ours: cases::BusCase, tally: &mut Tally) {
    let mut theirs = ours.clone();
    let case = ours.clone();
    let want = theirs.read();
    let got =
        bilvakront::plain_reading(&ours.list, ours.marks, &mut ours.memory, &mut ours.states, &ours.holds, ours.asked, &mut ours.results);
    assert_eq!((got.number, got.ticks), (want.number, want.ticks), "plain reading, seed {seed}: {case:?}");
    assert!(ours == theirs, "plain reading, areas differ, seed {seed}: {case:?}");
    tally.count(want.number, want.ticks);
}

fn end_of(end: bilvakront::End) -> second::End {
    match end {
        bilvakront::End::ListEnd => second::End::ListEnd,
        bilvakront::End::Fault(n) => second::End::Fault(n),
        bilvakront::End::RecordEnd => second::End::RecordEnd,
        bilvakront::End::Refused => second::End::Refused,
    }
}

fn controller(seed: u64, mut ours: cases::ControllerCase, tally: &mut Tally) {
    let mut theirs = ours.clone();
    let case = ours.clone();
    let want = theirs.run();
    let (number, end, ticks) = bilvakront::controller_alone(&ours.list, &ours.samples, &mut ours.drives, &mut ours.results);
    assert_eq!((number, end_of(end), ticks), want, "controller alone, seed {seed}: {case:?}");
    assert!(ours == theirs, "controller alone, areas differ, seed {seed}: {case:?}");
    tally.count(number, ticks);
}

fn chip(seed: u64, mut ours: cases::ChipCase, tally: &mut Tally) {
    let mut theirs = ours.clone();
    let case = ours.clone();
    let want = theirs.run();
    let got = bilvakront::chip_alone(ours.strap, &mut ours.memory, &mut ours.state, ours.asked, &ours.samples, &mut ours.drives);
    assert_eq!((got.number, got.ticks), (want.number, want.ticks), "one chip alone, seed {seed}: {case:?}");
    assert!(ours == theirs, "one chip alone, areas differ, seed {seed}: {case:?}");
    tally.count(want.number, want.ticks);
}

fn main() {
    let mut words = std::env::args().skip(1);
    let cases: u64 = words.next().map_or(24_000, |w| w.parse().expect("a number of cases"));
    let first: u64 = words.next().map_or(20_261_115, |w| w.parse().expect("a seed"));
    println!("compare: {cases} cases from seed {first}");
    let names = ["whole-bus run", "plain reading", "controller alone", "one chip alone"];
    let mut tallies = names.map(|name| (name, Tally { accepted: 0, refused: 0, ticks: 0 }));
    for i in 0..cases {
        let seed = first.wrapping_add(i);
        let rng = &mut Rng::new(seed);
        match i % 8 {
            0 => bus(seed, cases::bus(rng), &mut tallies[0].1),
            1 => bus(seed, cases::bus_damaged(rng), &mut tallies[0].1),
            2 => plain(seed, cases::bus(rng), &mut tallies[1].1),
            3 => plain(seed, cases::bus_damaged(rng), &mut tallies[1].1),
            4 => controller(seed, cases::controller(rng), &mut tallies[2].1),
            5 => controller(seed, cases::controller_damaged(rng), &mut tallies[2].1),
            6 => chip(seed, cases::chip(rng), &mut tallies[3].1),
            _ => chip(seed, cases::chip_damaged(rng), &mut tallies[3].1),
        }
    }
    for (name, t) in &tallies {
        println!("compare: {name}: {} accepted ({} ticks), {} refused, no difference", t.accepted, t.ticks, t.refused);
        assert!(t.accepted > 0 && t.refused > 0, "{name}: the cases must be of both kinds");
    }
}
