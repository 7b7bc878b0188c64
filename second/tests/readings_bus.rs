//! Readings 1 to 9 (ticks, symbols, holds, lists, results) and 27 to 28
//! (refusals), each with a small test.

mod common;
use common::{controller_on, record, Board};
use second::{chip, controller, plain, wires, Answer, End};

const ADDRESS: [u8; 6] = [1, 0, 0, 0x50, 0, 0];

#[test]
fn reading_1_the_trace_of_an_acknowledged_address() {
    // A0 is 1010 0000. The chip pulls from phase 1 of the ninth to phase 0 of
    // STOP.
    let expected = [
        [3, 3, 3, 1],
        [0, 2, 3, 3],
        [2, 0, 1, 1],
        [0, 2, 3, 3],
        [2, 0, 1, 1],
        [0, 0, 1, 1],
        [0, 0, 1, 1],
        [0, 0, 1, 1],
        [0, 0, 1, 1],
        [0, 0, 1, 1],
        [0, 0, 1, 3],
    ];
    assert_eq!(Board::bench().trace(&ADDRESS), expected.concat());
    // Nobody there: SDA is up in the ninth, and in STOP's phase 0 (p = 1).
    let trace = Board::of(0).trace(&ADDRESS);
    assert_eq!(trace[36..], [0, 2, 3, 3, 2, 0, 1, 3]);
}

#[test]
fn reading_2_p_is_driven_and_not_seen() {
    // The chip's acknowledgement holds SDA down; the controller still drives
    // p = 1 in STOP's phase 0.
    let (end, _, drives, _) = controller_on(&ADDRESS, &Board::bench().trace(&ADDRESS));
    assert_eq!(end, End::ListEnd);
    assert_eq!(drives[36..], [0, 2, 3, 3, 2, 0, 1, 3]);
    // 0 after START; the byte's last bit before a ninth (A1: 1).
    assert_eq!(drives[4], 0);
    let read = [1, 0, 0, 0x50, 1, 2];
    let (_, _, drives, _) = controller_on(&read, &Board::bench().trace(&read));
    assert_eq!(drives[36], 2);
    // The answers to read bytes: 0 (ticks 72 to 75), then 1 (108 to 111). p is
    // 1 before each, 0 behind the first and 1 behind the second.
    assert_eq!(drives[72..77], [2, 0, 1, 1, 0]);
    assert_eq!(drives[108..], [2, 2, 3, 3, 2, 0, 1, 3]);
}

#[test]
fn reading_3_which_symbols_take_hold_bytes() {
    // Transaction 1: 51 critical, nacked, so 50 is not sent: 9 symbols and
    // STOP. Transaction 2: two messages, the repeated START clocked too.
    let list = [2, 0, 0, 0x51, 0, 0, 0x50, 0, 0, 2, 3, 0, 0x50, 0, 0, 0x50, 1, 1];
    let without = Board::bench().both(&list).answer.ticks;
    assert_eq!(without, 4 * (1 + 9 + 1) + 3 + 4 * (2 + 27 + 1));
    // Phase 2 of the i-th clocked symbol.
    let mut places: Vec<usize> = (0..10).map(|i| 4 + 4 * i + 2).collect();
    places.extend((0..29).map(|i| 44 + 3 + 4 + 4 * i + 2));
    let plain_trace = Board::bench().trace(&list);
    for (i, &place) in places.iter().enumerate() {
        let mut holds = vec![0; i];
        holds.push(3);
        let board = Board::bench().holds(&holds);
        assert_eq!(board.both(&list).answer.ticks, without + 3);
        let mut expected = plain_trace.clone();
        let held = plain_trace[place] & 2;
        expected.splice(place..place, [held; 3]);
        assert_eq!(board.trace(&list), expected, "symbol {i}");
    }
    // A byte behind the last clocked symbol is not used.
    let holds = [vec![0; 39], vec![16]].concat();
    assert_eq!(Board::bench().holds(&holds).both(&list).answer.ticks, without);
}

#[test]
fn reading_4_held_ticks_are_counted_per_symbol() {
    let clean = record(&ADDRESS, |_| 3);
    // 16 held ticks in the first bit and 16 in the second are right.
    let mut samples = clean[..6].to_vec();
    samples.extend([2; 16]);
    samples.extend(&clean[6..10]);
    samples.extend([0; 16]);
    samples.extend(&clean[10..]);
    let (end, ticks, _, results) = controller_on(&ADDRESS, &samples);
    assert_eq!((end, ticks, results), (End::ListEnd, 44 + 32, vec![0, 0, 0]));
    // The 17th low tick is fault 2.
    let mut samples = clean[..6].to_vec();
    samples.extend([2; 20]);
    let (end, ticks, drives, results) = controller_on(&ADDRESS, &samples);
    assert_eq!((end, ticks, results), (End::Fault(2), 6 + 17, vec![2, 0, 0]));
    assert_eq!(drives[6..], [3; 17]);
}

#[test]
fn reading_5_a_short_trace() {
    let whole = Board::bench().trace(&ADDRESS);
    for length in [0, 1, 7, 43, 44, 45, 60] {
        let (mut memory, mut states) = (vec![0xFF; 4096], [0; 4]);
        let (mut results, mut trace) = ([9; 3], vec![0x77; length]);
        let answer =
            wires::run(&ADDRESS, 1, &mut memory, &mut states, &[], 0, &mut results, &mut trace);
        assert_eq!(answer, Answer { number: 0, ticks: 44 });
        assert_eq!(results, [0, 1, 0]);
        let written = length.min(44);
        assert_eq!(trace[..written], whole[..written]);
        assert!(trace[written..].iter().all(|&byte| byte == 0x77));
    }
}

#[test]
fn reading_6_the_area_is_started_on_every_accepted_call() {
    let list = [2, 0, 0, 0x50, 1, 3, 0x50, 2, 0, 1, 0, 0, 0x50, 0, 0];
    let mut results = [9; 13];
    let ended = controller::alone(&list, &[], &mut [], &mut results);
    assert_eq!(ended, (0, End::RecordEnd, 0));
    assert_eq!(results, [255, 0, 0, 0, 0, 0, 0, 0, 255, 0, 0, 9, 9]);
    let mut results = [9; 10];
    let ended = controller::alone(&list, &[], &mut [], &mut results);
    assert_eq!(ended, (7, End::Refused, 0));
    assert_eq!(results, [9; 10]);
}

#[test]
fn reading_7_changes_at_phase_3_of_the_ninth() {
    // A read of two: the address's ninth is 36 to 39, the bytes' 72 to 75 and
    // 108 to 111, STOP 112 to 115. The bytes are 5A and C3.
    let list = [1, 0, 0, 0x50, 1, 2];
    let mut board = Board::bench();
    board.memory[0] = 0x5A;
    board.memory[1] = 0xC3;
    let trace = board.trace(&list);
    let after = |ticks: usize| controller_on(&list, &trace[..ticks]).3;
    assert_eq!(after(39), [255, 0, 0, 0, 0]);
    assert_eq!(after(40), [255, 1, 0, 0, 0]);
    assert_eq!(after(75), [255, 1, 0, 0, 0]);
    assert_eq!(after(76), [255, 1, 1, 0x5A, 0]);
    assert_eq!(after(111), [255, 1, 1, 0x5A, 0]);
    assert_eq!(after(112), [255, 1, 2, 0x5A, 0xC3]);
    assert_eq!(after(115), [255, 1, 2, 0x5A, 0xC3]);
    assert_eq!(after(116), [0, 1, 2, 0x5A, 0xC3]);
    // A fault in that very tick: nothing changes but the outcome.
    for (tick, expected) in
        [(39, [3, 0, 0, 0, 0]), (75, [3, 1, 0, 0, 0]), (111, [3, 1, 1, 0x5A, 0])]
    {
        let mut samples = trace.clone();
        samples[tick] ^= 1;
        assert_eq!(controller_on(&list, &samples).3, expected);
    }
}

#[test]
fn reading_8_the_last_read_byte_counts() {
    let left = Board::bench().both(&[1, 0, 0, 0x50, 1, 1]);
    assert_eq!(left.results, [0, 1, 1, 0xFF]);
    let left = Board::bench().both(&ADDRESS);
    assert_eq!(left.results, [0, 1, 0]);
}

#[test]
fn reading_9_a_one_is_no_fault() {
    // A non-critical message that ends so as the last one: STOP follows.
    let left = Board::bench().both(&[2, 0, 0, 0x50, 0, 0, 0x51, 3, 2]);
    assert_eq!((left.results, left.answer.ticks), (vec![0, 1, 0, 0, 0, 0, 0], 84));
    // A written byte answered with 1, critical and not; a message follows.
    // The first message's second byte gets the 1 (ninth at 108 to 111).
    let acks =
        |tick: usize| if (37..40).contains(&tick) || (73..76).contains(&tick) { 1 } else { 3 };
    for (kind, ticks) in [(0, 112 + 4), (2, 112 + 40 + 4)] {
        let list = [2, 0, 0, 0x50, kind, 3, 1, 2, 3, 0x50, 0, 0];
        let samples = record(&list, acks);
        let (end, ended, _, results) = controller_on(&list, &samples);
        assert_eq!((end, ended), (End::ListEnd, ticks));
        assert_eq!(results, [0, 1, 1, 0, 0]);
    }
    // Also where the 1 comes to the last written byte.
    let list = [2, 0, 0, 0x50, 0, 2, 1, 2, 0x50, 0, 0];
    let (end, ended, _, results) = controller_on(&list, &record(&list, acks));
    assert_eq!((end, ended, results), (End::ListEnd, 116, vec![0, 1, 1, 0, 0]));
}

#[test]
fn reading_27_what_refusals_look_at() {
    // 8 behind the list's end; 9 though the run would have stopped earlier.
    let mut samples = Board::bench().trace(&ADDRESS);
    samples.extend([3, 3, 4]);
    let (mut drives, mut results) = (vec![7; 47], [9; 3]);
    assert_eq!(controller::alone(&ADDRESS, &samples, &mut drives, &mut results).0, 8);
    samples[46] = 3;
    assert_eq!(controller::alone(&ADDRESS, &samples, &mut drives[..46], &mut results).0, 9);
    assert_eq!((drives.clone(), results), (vec![7; 47], [9; 3]));
    let ended = controller::alone(&ADDRESS, &samples, &mut drives, &mut results);
    assert_eq!(ended, (0, End::ListEnd, 44));
    assert_eq!(drives[44..], [7; 3]);
    // 5 for the plain reading and the empty list too.
    assert_eq!(plain::read(&[], 0, &mut [], &mut [], &[17], 0, &mut []).number, 5);
    assert_eq!(wires::run(&[], 0, &mut [], &mut [], &[0, 17], 0, &mut [], &mut []).number, 5);
}

#[test]
fn reading_28_the_last_sample() {
    let trace = Board::bench().trace(&ADDRESS);
    assert_eq!(controller_on(&ADDRESS, &trace).0, End::ListEnd);
    assert_eq!(controller_on(&ADDRESS, &trace[..43]).0, End::RecordEnd);
    let mut broken = trace[..10].to_vec();
    broken[9] = 3;
    assert_eq!(controller_on(&ADDRESS, &broken).0, End::Fault(5));
    assert_eq!(controller::alone(&[], &[], &mut [], &mut []), (0, End::ListEnd, 0));
    assert_eq!(controller::alone(&[], &[0, 1], &mut [5, 5], &mut []), (0, End::ListEnd, 0));
}

/// All reasons at once, taken away one after the other in the entry's order.
#[test]
fn refusals_come_in_each_entrys_own_order() {
    let long = vec![0; 4097];
    let lists: [&[u8]; 3] = [&long, &[1], &ADDRESS];
    let mut met = Vec::new();
    for step in 0..8 {
        let list = lists[step.min(2)];
        let mut memory = vec![0; if step > 2 { 4096 } else { 4095 }];
        let mut states = if step > 3 { vec![0; 4] } else { vec![0, 16, 0, 0] };
        let holds = if step > 4 { [16] } else { [17] };
        let asked = if step > 5 { 20_000 } else { 20_001 };
        let mut results = vec![0; if step > 6 { 3 } else { 2 }];
        let answer =
            wires::run(list, 1, &mut memory, &mut states, &holds, asked, &mut results, &mut []);
        let (mut memory, mut states, mut results) =
            (vec![0; memory.len()], states.clone(), vec![0; results.len()]);
        let again = plain::read(list, 1, &mut memory, &mut states, &holds, asked, &mut results);
        assert_eq!(answer, again);
        met.push(answer.number);
    }
    assert_eq!(met, [1, 2, 3, 4, 5, 6, 7, 0]);

    let mut met = Vec::new();
    for step in 0..6 {
        let samples = if step > 2 { [3, 3] } else { [3, 4] };
        let mut drives = vec![0; if step > 3 { 2 } else { 1 }];
        let mut results = vec![0; if step > 4 { 3 } else { 2 }];
        met.push(controller::alone(lists[step.min(2)], &samples, &mut drives, &mut results).0);
    }
    assert_eq!(met, [1, 2, 8, 9, 7, 0]);

    let mut met = Vec::new();
    for step in 0..7 {
        let strap = if step > 0 { 7 } else { 8 };
        let mut memory = vec![0; if step > 1 { 4096 } else { 8192 }];
        let mut state = if step > 2 { [255, 15, 32, 78] } else { [0, 0, 33, 78] };
        let asked = if step > 3 { 20_000 } else { 20_001 };
        let samples = if step > 4 { [3, 3] } else { [255, 3] };
        let mut drives = vec![0; if step > 5 { 2 } else { 1 }];
        let answer = chip::alone(strap, &mut memory, &mut state, asked, &samples, &mut drives);
        assert_eq!(answer.ticks, if step == 6 { 2 } else { 0 });
        met.push(answer.number);
    }
    assert_eq!(met, [10, 3, 4, 6, 8, 9, 0]);
}

#[test]
fn limits_of_the_refusals() {
    let run = |board: &Board, list: &[u8]| {
        let left = board.both(list);
        left.answer.number
    };
    // 3: memory and states each for themselves, one byte more too.
    for (memory, states) in
        [(4095, 4), (4097, 4), (4096, 3), (4096, 5), (0, 4), (4096, 0), (8192, 8)]
    {
        let mut board = Board::bench();
        board.memory = vec![0; memory];
        board.states = vec![0; states];
        assert_eq!(run(&board, &[]), 3);
    }
    // 4: pointer and busy of any chip.
    assert_eq!(run(&Board::of(0x81).state(1, 4095, 20_000), &[]), 0);
    assert_eq!(run(&Board::of(0x81).state(1, 4096, 0), &[]), 4);
    assert_eq!(run(&Board::of(0x81).state(1, 0, 20_001), &[]), 4);
    // 1: 4,096 bytes are right, 4,097 not; the form is not looked at then.
    let mut rng = second::cases::Rng::new(1);
    assert_eq!(run(&Board::bench(), &second::cases::list_of_size(&mut rng, 4096)), 0);
    assert_eq!(run(&Board::bench(), &second::cases::list_of_size(&mut rng, 4097)), 1);
    // 2: cut short anywhere but between transactions.
    let list = [1, 0, 0, 0x50, 0, 2, 9, 9, 2, 0, 0, 0x50, 1, 64, 0x50, 2, 1, 7];
    for cut in 0..=list.len() {
        let right = [0, 8, list.len()].contains(&cut);
        assert_eq!(run(&Board::bench(), &list[..cut]), if right { 0 } else { 2 }, "{cut}");
    }
    // 2: count 0, address 127, kind 4.
    assert_eq!(run(&Board::bench(), &[0, 0, 0]), 2);
    assert_eq!(run(&Board::bench(), &[1, 0, 0, 127, 0, 0]), 0);
    assert_eq!(run(&Board::bench(), &[1, 0, 0, 0x50, 4, 0]), 2);
}
