//! The wire run against a straightforward Rust counterpart (plain structs, `&mut self`, every party stepped every tick): same lists, same machine,
//! both built for release, taken in turn, outputs compared. A line for each number of chips and each wait: nanoseconds a tick, the ratio, ticks a second.
//! Memories, states and areas are filled anew before each timed run, on both sides, outside the time.

use second::cases::{bus_of, BusCase, Rng};
use second::{counterpart, form};
use std::time::Instant;

/// Writes of a page, reads back and pointer writes to the chips in turn, until the list is some 1,000 bytes long.
fn list(chips: usize, wait: u16) -> Vec<u8> {
    let mut list = Vec::new();
    let mut i = 0usize;
    while list.len() < 1_000 {
        let address = 80 + (i % chips.max(1)) as u8;
        let place = (i * 37 % 4096) as u16;
        list.extend([2, wait as u8, (wait >> 8) as u8, address, 2, 18]);
        list.extend(place.to_be_bytes());
        list.extend((0..16).map(|k| (k * 11 + i) as u8));
        list.extend([address, 3, 16]);
        list.extend([2, wait as u8, (wait >> 8) as u8, address, 2, 2]);
        list.extend(place.to_be_bytes());
        list.extend([address, 3, 24]);
        i += 1;
    }
    list
}

fn case(chips: usize, wait: u16) -> BusCase {
    let list = list(chips, wait);
    let room = form::result_size(&list).expect("a right list");
    let mut case = bus_of(&mut Rng::new(7), list);
    case.marks = ((1u16 << chips) - 1) as u8;
    case.memory = (0..chips * 4096).map(|i| (i * 31 + i / 256) as u8).collect();
    case.states = vec![0; chips * 4];
    case.holds = Vec::new();
    case.asked = 400;
    case.results = vec![0; room];
    case.trace = vec![0; 1 << 16];
    case
}

/// The best of several runs, in nanoseconds a tick, and what it left.
fn best(case: &BusCase, rounds: usize, run: impl Fn(&mut BusCase) -> u64) -> (f64, u64, BusCase) {
    let mut least = f64::INFINITY;
    let mut left = case.clone();
    let mut ticks = 0;
    for _ in 0..rounds {
        left.clone_from(case);
        let begun = Instant::now();
        ticks = run(&mut left);
        least = least.min(begun.elapsed().as_nanos() as f64 / ticks as f64);
    }
    (least, ticks, left)
}

fn ours(c: &mut BusCase) -> u64 {
    bilvakront::bus_run(&c.list, c.marks, &mut c.memory, &mut c.states, &c.holds, c.asked, &mut c.results, &mut c.trace).ticks
}

fn theirs(c: &mut BusCase) -> u64 {
    counterpart::run(&c.list, c.marks, &mut c.memory, &mut c.states, &c.holds, c.asked, &mut c.results, &mut c.trace).ticks
}

fn main() {
    let rounds: usize = std::env::args().nth(1).map_or(300, |w| w.parse().expect("a number of rounds"));
    println!("chips   wait    ticks   Rust ns  ours ns   ratio   Mticks/s   (best of {rounds}, in turn; areas filled before each run)");
    let (mut all_ours, mut all_theirs) = (0.0, 0.0);
    for wait in [0u16, 8_000] {
        for chips in [0usize, 1, 2, 8] {
            let case = case(chips, wait);
            let (mut a, mut b) = (f64::INFINITY, f64::INFINITY);
            let mut ticks = 0;
            for _ in 0..5 {
                let (x, t, left) = best(&case, rounds / 5, ours);
                let (y, u, right) = best(&case, rounds / 5, theirs);
                assert_eq!(t, u, "the tick counts differ");
                assert!(left == right, "the outputs differ");
                (a, b, ticks) = (a.min(x), b.min(y), t);
            }
            if chips > 0 {
                all_ours += a * ticks as f64;
                all_theirs += b * ticks as f64;
            }
            println!("{chips:5} {wait:6} {ticks:8}  {b:8.2} {a:8.2}  {:6.2}   {:8.1}", a / b, 1_000.0 / a);
        }
    }
    println!("the mix of 1, 2 and 8 chips with waits 0 and 8,000: {:.2}", all_ours / all_theirs);
}
