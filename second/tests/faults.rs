//! Line faults of the controller alone: the whole table typed in by hand, and
//! readings 10 to 16.

mod common;
use common::{controller_on, record};
use second::End;

/// START, A0, ninth, repeated START, A2, ninth, STOP: 84 ticks, nobody there.
const LIST: [u8; 9] = [2, 0, 0, 0x50, 2, 0, 0x51, 0, 0];

/// START, A1, ninth, a byte, its ninth, STOP: 80 ticks.
const READ: [u8; 6] = [1, 0, 0, 0x50, 1, 1];

/// What the tick does with each sample 0 (0,0), 1 (SCL), 2 (SDA), 3 (both):
/// a fault's digit, `.` goes on to the next phase, `h` is held.
fn check(list: &[u8], tick: usize, expected: &str) {
    let clean = record(list, |_| 3);
    check_after(list, &clean[..tick], expected);
}

fn check_after(list: &[u8], before: &[u8], expected: &str) {
    for (sample, what) in expected.chars().enumerate() {
        let mut samples = before.to_vec();
        samples.push(sample as u8);
        let ticks = samples.len();
        let (end, ended, drives, results) = controller_on(list, &samples);
        assert_eq!(ended as usize, ticks);
        match what.to_digit(10) {
            Some(number) => {
                assert_eq!(end, End::Fault(number as u8), "tick {} of {sample}", ticks - 1);
                assert_eq!(results[0], number as u8);
            }
            None => {
                assert!(!matches!(end, End::Fault(_)), "tick {} of {sample}: {end:?}", ticks - 1);
                if what == 'h' {
                    // The next tick drives phase 2 again.
                    let driven = drives[ticks - 1];
                    samples.push(0);
                    let (_, _, drives, _) = controller_on(list, &samples);
                    assert_eq!(drives[ticks], driven);
                }
            }
        }
    }
}

#[test]
fn first_start() {
    // Phases 0 to 2 drive 1,1; phase 3 drives 1,0.
    check(&LIST, 0, "444.");
    check(&LIST, 1, "444.");
    check(&LIST, 2, "444.");
    check(&LIST, 3, "3.55");
}

#[test]
fn sent_one() {
    // The first address bit, p = 0.
    check(&LIST, 4, ".555");
    check(&LIST, 5, ".5.5");
    check(&LIST, 6, "h1h.");
    check(&LIST, 7, "333.");
    // The seventh bit of A2, p = 0.
    check(&LIST, 68, ".555");
    check(&LIST, 70, "h1h.");
    check(&LIST, 71, "333.");
}

#[test]
fn sent_zero() {
    // The second address bit, p = 1.
    check(&LIST, 8, ".5.5");
    check(&LIST, 9, ".555");
    check(&LIST, 10, "h.55");
    check(&LIST, 11, "3.55");
}

#[test]
fn received_bit() {
    // The address's ninth, p = 0. A sample of 1 or 3 in phase 2 goes on.
    check(&LIST, 36, ".555");
    check(&LIST, 37, ".5.5");
    check(&LIST, 38, "h.h.");
    check(&LIST, 39, "333.");
    let low = record(&LIST, |tick| if tick == 38 { 1 } else { 3 });
    check_after(&LIST, &low[..39], "3.33");
}

#[test]
fn repeated_start() {
    // p = 1 after a received bit.
    check(&LIST, 40, ".5.5");
    check(&LIST, 41, ".5.5");
    check(&LIST, 42, "h1h.");
    check(&LIST, 43, "3.55");
}

#[test]
fn stop() {
    check(&LIST, 80, ".5.5");
    check(&LIST, 81, ".555");
    check(&LIST, 82, "h.55");
    check(&LIST, 83, "313.");
}

#[test]
fn reading_10_waits_are_not_looked_at() {
    let list = [1, 5, 0, 0x50, 0, 0];
    // The first tick behind the wait is looked at.
    let (end, ticks, drives, results) = controller_on(&list, &[0, 1, 2, 0, 1, 2]);
    assert_eq!((end, ticks, results[0]), (End::Fault(4), 6, 4));
    assert_eq!(drives, [3; 6]);
    let mut samples = vec![0, 1, 2, 0, 1];
    samples.extend(record(&[1, 0, 0, 0x50, 0, 0], |_| 3));
    let (end, ticks, _, results) = controller_on(&list, &samples);
    assert_eq!((end, ticks, results), (End::ListEnd, 49, vec![0, 0, 0]));
}

#[test]
fn reading_11_first_start() {
    // SCL 0 in phase 2 is 4, no held tick; phase 3 with SDA 1 is 5, even with
    // SCL 0, else SCL 0 is 3.
    for (samples, number) in
        [([3, 3, 2, 3], 4), ([3, 3, 3, 2], 5), ([3, 3, 3, 3], 5), ([3, 3, 3, 0], 3)]
    {
        let (end, ..) = controller_on(&LIST, &samples);
        assert_eq!(end, End::Fault(number));
    }
}

#[test]
fn reading_12_broken_in_a_held_tick() {
    // A sent 0 (tick 10) and STOP (tick 82): held once, then SDA seen 1.
    for tick in [10, 82] {
        let mut samples = record(&LIST, |_| 3)[..tick].to_vec();
        samples.extend([0, 2]);
        let (end, ticks, ..) = controller_on(&LIST, &samples);
        assert_eq!((end, ticks as usize), (End::Fault(5), tick + 2));
    }
}

#[test]
fn reading_13_a_bit_that_differs() {
    // A sent 1 that falls in phase 3 is 3, not 1.
    let mut samples = record(&LIST, |_| 3);
    samples[7] = 1;
    assert_eq!(controller_on(&LIST, &samples).0, End::Fault(3));
    // Compared with the last tick of phase 2 alone, not with held ticks or
    // phase 1: a received bit with SDA 1, 0 (held), then 1, 1.
    let clean = record(&LIST, |_| 3);
    let mut samples = clean[..37].to_vec();
    samples.extend([0, 0, 2, 3, 3]);
    let (end, ..) = controller_on(&LIST, &samples);
    assert_eq!(end, End::RecordEnd);
    let mut samples = clean[..37].to_vec();
    samples.extend([2, 2, 0, 1, 1]);
    let (end, .., results) = controller_on(&LIST, &samples);
    assert_eq!((end, results[1]), (End::RecordEnd, 1));
}

#[test]
fn reading_14_data_lost() {
    // Not looked at in held ticks: a sent 1, held with SDA 0, then seen 1.
    let clean = record(&LIST, |_| 3);
    let mut samples = clean[..6].to_vec();
    samples.extend([0, 0, 3, 3]);
    assert_eq!(controller_on(&LIST, &samples).0, End::RecordEnd);
    let mut samples = clean[..6].to_vec();
    samples.extend([0, 0, 1, 3]);
    assert_eq!(controller_on(&LIST, &samples).0, End::Fault(1));
    // It counts for the controller's own answer 1: the read byte's ninth is
    // ticks 72 to 75 and sends 1.
    let mut samples = record(&READ, |tick| if (37..40).contains(&tick) { 1 } else { 3 });
    samples[74] = 1;
    let (end, ticks, _, results) = controller_on(&READ, &samples);
    assert_eq!((end, ticks), (End::Fault(1), 75));
    assert_eq!(results, [1, 1, 0, 0]);
}

#[test]
fn reading_15_stop_without_clock() {
    for sample in [0, 2] {
        let mut samples = record(&LIST, |_| 3);
        samples[83] = sample;
        assert_eq!(controller_on(&LIST, &samples).0, End::Fault(3));
    }
}

#[test]
fn reading_16_the_faulting_tick() {
    // Two transactions; the first faults in its second bit. The tick counts
    // and is driven, nothing follows, later outcomes stay 255.
    let list = [1, 0, 0, 0x50, 0, 0, 1, 0, 0, 0x50, 1, 1];
    let mut samples = record(&list, |_| 3);
    samples[9] = 2;
    let (end, ticks, drives, results) = controller_on(&list, &samples);
    assert_eq!((end, ticks), (End::Fault(5), 10));
    assert_eq!(drives, [3, 3, 3, 1, 0, 2, 3, 3, 2, 0]);
    assert_eq!(results, [5, 0, 0, 255, 0, 0, 0]);
}

#[test]
fn faults_keep_the_slots() {
    // The address was acknowledged, one byte written; the next byte faults.
    let list = [1, 0, 0, 0x50, 0, 2, 0xFF, 0xFF];
    let acks =
        |tick: usize| if (37..40).contains(&tick) || (73..76).contains(&tick) { 1 } else { 3 };
    let mut samples = record(&list, acks);
    samples[78] = 1;
    let (end, ticks, _, results) = controller_on(&list, &samples);
    assert_eq!((end, ticks), (End::Fault(1), 79));
    assert_eq!(results, [1, 1, 1]);
}

#[test]
fn faults_are_looked_at_only_in_their_phases() {
    // SDA pulled by somebody else where nothing forbids it: phases 0 and 1 of
    // a sent 1, of a repeated START and of a received bit.
    let pulled = [5, 13, 37, 40, 41, 69];
    let clean = record(&LIST, |_| 3);
    let samples = record(&LIST, |tick| if pulled.contains(&tick) { 1 } else { 3 });
    assert_ne!(samples, clean);
    let (end, ticks, drives, results) = controller_on(&LIST, &samples);
    assert_eq!((end, ticks), (End::ListEnd, 84));
    assert_eq!(results, [0, 0, 0, 0, 0]);
    // And what it drives does not follow what it sees.
    assert_eq!(drives, clean);
}
