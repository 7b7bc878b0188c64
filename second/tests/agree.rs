//! Random cases: the wires and the plain reading, the parties alone on the
//! bus's own trace, the tick formula, refusals, and the generator's reach.

mod common;
use second::cases::{self, Rng};
use second::form::{self, Head};
use second::{chip, controller, Answer, End};

/// "its asked wait, plus 4(m + 9L + 1) ticks, plus its holds", summed over
/// the transactions, with m and L read off the results.
fn ticks_by_formula(list: &[u8], holds: &[u8], results: &[u8]) -> u64 {
    let (mut at, mut slot, mut ticks, mut clocked) = (0, 0, 0u64, 0);
    while at < list.len() {
        let (count, wait) = form::transaction_at(list, at).unwrap();
        (at, slot) = (at + 3, slot + 1);
        let (mut m, mut l, mut over) = (0usize, 0usize, false);
        for _ in 0..count {
            let head = Head::at(list, at).unwrap();
            if !over {
                m += 1;
                l += 1 + results[slot + 1] as usize;
                over = results[slot] == 0 && head.is_critical();
            }
            (at, slot) = (at + head.list_size(), slot + head.result_size());
        }
        let held: u64 = holds.iter().skip(clocked).take(m + 9 * l).map(|&h| h as u64).sum();
        clocked += m + 9 * l;
        let after = 4 * (m + 9 * l + 1) as u64 + held;
        assert!(after <= 20 * (m + 9 * l) as u64 + 4);
        ticks += wait as u64 + after;
    }
    ticks
}

#[test]
fn wires_and_plain_agree() {
    let (mut nacks, mut stored) = (0, 0);
    for seed in 0..4000 {
        let before = cases::bus(&mut Rng::new(seed));
        let (mut wires, mut plain) = (before.clone(), before.clone());
        let answer = wires.run();
        assert_eq!(answer.number, 0, "seed {seed}");
        assert_eq!(plain.read(), answer, "seed {seed}");
        let size = form::result_size(&before.list).unwrap();
        assert_eq!(wires.results[size..], before.results[size..]);
        assert_eq!(answer.ticks, ticks_by_formula(&before.list, &before.holds, &wires.results));
        // Nothing else may differ but the trace.
        let ticks = (answer.ticks as usize).min(before.trace.len());
        assert!(wires.trace[..ticks].iter().all(|&byte| byte <= 3));
        assert_eq!(wires.trace[ticks..], before.trace[ticks..]);
        wires.trace = before.trace.clone();
        assert_eq!(wires, plain, "seed {seed}");
        // "No fault occurs."
        let mut at = 0;
        let mut slot = 0;
        while at < before.list.len() {
            assert_eq!(wires.results[slot], 0, "seed {seed}");
            let (count, _) = form::transaction_at(&before.list, at).unwrap();
            (at, slot) = (at + 3, slot + 1);
            for _ in 0..count {
                let head = Head::at(&before.list, at).unwrap();
                let there = (80..88).contains(&head.address)
                    && before.marks & 1 << (head.address - 80) != 0;
                nacks += (there && wires.results[slot] == 0) as usize;
                (at, slot) = (at + head.list_size(), slot + head.result_size());
            }
        }
        stored += (wires.memory != before.memory) as usize;
    }
    // Silent chips that are there (busy, or not asked) and stored pages.
    assert!(nacks > 1000 && stored > 1000, "{nacks} {stored}");
}

#[test]
fn the_parties_alone_agree_with_the_bus() {
    for seed in 0..1500 {
        let mut before = cases::bus(&mut Rng::new(seed));
        before.trace = vec![0; 200_000];
        let mut after = before.clone();
        let ticks = after.run().ticks as usize;
        if ticks > 200_000 {
            continue;
        }
        let trace = &after.trace[..ticks];

        let mut drives = vec![0; ticks];
        let mut results = before.results.clone();
        let ended = controller::alone(&before.list, trace, &mut drives, &mut results);
        assert_eq!(ended, (0, End::ListEnd, ticks as u64));
        assert_eq!(results, after.results);

        let mut lines = drives;
        let mut place = 0;
        for strap in 0..8 {
            if before.marks & 1 << strap == 0 {
                continue;
            }
            let mut memory = before.memory[4096 * place..][..4096].to_vec();
            let mut state = before.states[4 * place..][..4].to_vec();
            let mut drives = vec![0; ticks];
            let answer =
                chip::alone(strap, &mut memory, &mut state, before.asked, trace, &mut drives);
            assert_eq!(answer, Answer { number: 0, ticks: ticks as u64 });
            assert_eq!(memory, after.memory[4096 * place..][..4096]);
            assert_eq!(state, after.states[4 * place..][..4]);
            for (line, drive) in lines.iter_mut().zip(drives) {
                *line &= drive;
            }
            place += 1;
        }
        // The line is the AND of all drives; the holder pulls SCL alone.
        for (line, seen) in lines.iter().zip(trace) {
            assert_eq!(line & 2, seen & 2, "seed {seed}");
            assert!(*line == *seen || (!before.holds.is_empty() && line & !1 == *seen));
        }
    }
}

#[test]
fn every_call_ends_and_a_refusal_changes_nothing() {
    let mut met = [0usize; 11];
    for seed in 0..6000 {
        let before = cases::bus_damaged(&mut Rng::new(seed));
        let (mut wires, mut plain) = (before.clone(), before.clone());
        let answer = wires.run();
        assert_eq!(plain.read(), answer);
        met[answer.number as usize] += 1;
        if answer.number != 0 {
            assert_eq!(answer.ticks, 0);
            assert_eq!(wires, before);
        } else {
            wires.trace = before.trace.clone();
        }
        assert_eq!(wires, plain, "seed {seed}");
    }
    assert!(met[..8].iter().all(|&count| count >= 20), "{met:?}");
    let mut met = [0usize; 11];
    for seed in 0..6000 {
        let before = cases::controller_damaged(&mut Rng::new(seed));
        let mut case = before.clone();
        let (number, end, ticks) = case.run();
        met[number as usize] += 1;
        assert_eq!(end == End::Refused, number != 0);
        if number != 0 {
            assert_eq!((ticks, &case), (0, &before));
        }
        let before = cases::chip_damaged(&mut Rng::new(seed));
        let mut case = before.clone();
        let answer = case.run();
        met[answer.number as usize] += 1;
        if answer.number != 0 {
            assert_eq!((answer.ticks, &case), (0, &before));
        }
    }
    for number in [1, 2, 3, 4, 6, 7, 8, 9, 10] {
        assert!(met[number] >= 20, "{met:?}");
    }
    assert_eq!(met[5], 0);
}

#[test]
fn the_alone_cases_reach_every_end() {
    let mut met = [0usize; 7];
    let (mut acknowledged, mut stored) = (0, 0);
    for seed in 0..4000 {
        let before = cases::controller(&mut Rng::new(seed));
        let mut case = before.clone();
        let (number, end, ticks) = case.run();
        assert_eq!(number, 0);
        assert_eq!(case.drives[ticks as usize..], before.drives[ticks as usize..]);
        assert!(case.drives[..ticks as usize].iter().all(|&drive| drive <= 3));
        match end {
            End::Refused => unreachable!(),
            End::ListEnd => met[0] += 1,
            End::Fault(number) => met[number as usize] += 1,
            End::RecordEnd => {
                met[6] += 1;
                assert_eq!(ticks as usize, before.samples.len());
            }
        }
        let before = cases::chip(&mut Rng::new(seed));
        let mut case = before.clone();
        let answer = case.run();
        assert_eq!(answer, Answer { number: 0, ticks: before.samples.len() as u64 });
        let drives = &case.drives[..before.samples.len()];
        assert!(drives.iter().all(|&drive| drive == 1 || drive == 3));
        acknowledged += drives.contains(&1) as usize;
        stored += (case.memory != before.memory) as usize;
    }
    assert!(met.iter().all(|&count| count >= 20), "{met:?}");
    assert!(acknowledged > 500 && stored > 100, "{acknowledged} {stored}");
    println!("{met:?} {acknowledged} {stored}");
}
