//! Readings 17 to 26 (the chip) and the chip's other rules, on records that
//! are written by hand.

mod common;
use common::{Board, Record};

const WRITE: u8 = 0xA0;
const READ: u8 = 0xA1;

/// START, own address for writing, acknowledged, the pointer bytes.
fn pointed(high: u8, low: u8) -> Record {
    Record::new().start().nine(WRITE, 0).nine(high, 0).nine(low, 0)
}

#[test]
fn it_acknowledges_from_the_tick_after_the_eighth_bit() {
    let record = Record::new().start().byte(WRITE);
    let eighth = record.len();
    // Tick `eighth` is SCL's fall; the pull shows one tick later, and the last
    // pulled tick is the next fall.
    let seen = record.bit(0).bit(1).bit(1).chip(0, 0, 0, &[]);
    let pulled: Vec<usize> = (0..seen.drives.len()).filter(|&tick| seen.pulls(tick)).collect();
    assert_eq!(pulled, [eighth + 1, eighth + 2]);
}

#[test]
fn reading_17_decided_before_the_busy_times_fall() {
    // The eighth bit is delivered in tick 2 + 16: busy 18 is 0 there.
    let record = Record::new().start().nine(WRITE, 0);
    assert!(!record.chip(0, 18, 0, &[]).never_pulls());
    assert!(record.chip(0, 19, 0, &[]).never_pulls());
    // On the whole bus, with another chip that is free.
    let board = Board::of(3).state(0, 0, 36).state(1, 0, 37);
    let left = board.both(&[1, 0, 0, 0x50, 0, 0]);
    assert_eq!(left.results, [0, 1, 0]);
    let left = board.both(&[1, 0, 0, 0x51, 0, 0]);
    assert_eq!(left.results, [0, 0, 0]);
}

#[test]
fn reading_18_the_stops_own_tick_only_sets_busy() {
    let record = pointed(0, 0).nine(0x12, 0).stop();
    let seen = record.chip(0, 0, 100, &[]);
    assert_eq!((seen.busy, seen.stored()), (100, vec![(0, 0x12)]));
    assert_eq!(record.clone().idle(1).chip(0, 0, 100, &[]).busy, 99);
    assert_eq!(record.idle(101).chip(0, 0, 100, &[]).busy, 0);
    // A STOP that stores nothing lets a running busy time fall.
    let record = Record::new().start().stop().idle(1);
    assert_eq!(record.chip(0, 50, 100, &[]).busy, 50 - record.len() as u16);
    // A starting busy falls from the first tick on.
    assert_eq!(Record::new().idle(1).chip(0, 50, 100, &[]).busy, 49);
}

#[test]
fn reading_19_pointer_bytes_alone_store_nothing() {
    let seen = pointed(0x01, 0x23).stop().chip(7, 0, 100, &[]);
    assert_eq!((seen.pointer, seen.busy, seen.stored()), (0x123, 0, vec![]));
    // One alone changes nothing.
    let seen = Record::new().start().nine(WRITE, 0).nine(0x01, 0).stop().chip(7, 0, 100, &[]);
    assert_eq!((seen.pointer, seen.busy), (7, 0));
}

#[test]
fn reading_20_a_later_start_may_find_it_free() {
    // Asked while busy, silent through the message; asked again, it answers.
    let first = Record::new().start().nine(WRITE, 0).nine(0, 0);
    let busy = first.len() as u16;
    let record = first.clone().restart().nine(WRITE, 0);
    let seen = record.chip(0, busy, 0, &[]);
    let pulled: Vec<usize> = (0..seen.drives.len()).filter(|&tick| seen.pulls(tick)).collect();
    assert_eq!(pulled, [record.len() - 1]);
    // Free again in the middle of the message, it stays silent until START.
    assert!(first.nine(0x55, 0).nine(0xAA, 0).stop().chip(0, 20, 0, &[]).never_pulls());
}

#[test]
fn reading_21_ignored_bits_lose_their_value() {
    // The ninth bits as 1 while it acknowledges, as 0: all the same.
    let with = |ninth: u8| {
        let record = Record::new().start().nine(WRITE, ninth).nine(1, ninth).nine(2, ninth);
        record.nine(0x77, ninth).stop().chip(0, 0, 9, &[])
    };
    assert_eq!(with(0), with(1));
    assert_eq!(with(1).stored(), [(0x102, 0x77)]);
    // What the lines show while it sends does not matter.
    let with = |bits: u8| {
        Record::new().start().nine(READ, 0).nine(bits, 0).nine(bits, 1).chip(5, 0, 9, &[(5, 0x3C)])
    };
    assert_eq!(with(0x00), with(0xFF));
    assert_eq!(with(0x3C).pointer, 6);
}

#[test]
fn it_sends_highest_bit_first() {
    let lead = Record::new().start().nine(READ, 0);
    let from = lead.len();
    let seen = lead.nine(0xFF, 0).nine(0xFF, 1).bit(1).chip(4095, 0, 0, &[(4095, 0xA5), (0, 0x0F)]);
    // A bit shows in the tick after the fall, which is the bit's high tick.
    let sent =
        |at: usize| (0..8).fold(0u8, |byte, n| byte << 1 | !seen.pulls(at + 2 * n + 1) as u8);
    assert_eq!((sent(from), sent(from + 18)), (0xA5, 0x0F));
    // It lets go for the ninth bit.
    assert!(!seen.pulls(from + 17) && !seen.pulls(from + 35));
    assert_eq!(seen.pointer, 1);
}

#[test]
fn reading_22_the_pointer_steps_at_the_ninths_fall() {
    let lead = Record::new().start().nine(READ, 0).byte(0xFF);
    for ninth in [0, 1] {
        let record = lead.clone().bit(ninth);
        // The record ends in the ninth's high time.
        assert_eq!(record.chip(9, 0, 0, &[]).pointer, 9);
        assert_eq!(record.ticks(&[ninth << 1]).chip(9, 0, 0, &[]).pointer, 10);
    }
    // A STOP (SDA rises) or a START (it falls) in it leaves the pointer.
    assert_eq!(lead.clone().ticks(&[0, 1, 3, 2]).chip(9, 0, 0, &[]).pointer, 9);
    assert_eq!(lead.ticks(&[2, 3, 1, 0]).chip(9, 0, 0, &[]).pointer, 9);
}

#[test]
fn silent_after_a_one() {
    let record = Record::new().start().nine(READ, 0).nine(0, 1);
    let sent = record.len();
    let seen = record.nine(0, 0).nine(WRITE, 0).chip(0, 0, 0, &[(0, 0), (1, 0), (2, 0)]);
    assert!((sent..seen.drives.len()).all(|tick| !seen.pulls(tick)));
    assert_eq!(seen.pointer, 1);
    // After a 0 it sends on.
    let record = Record::new().start().nine(READ, 0).nine(0, 0).nine(0, 1).ticks(&[0]);
    assert_eq!(record.chip(0, 0, 0, &[(0, 0), (1, 0)]).pointer, 2);
}

#[test]
fn reading_23_several_edges_in_one_high_time() {
    // START, STOP, START in one high time: the last START counts.
    let record = Record::new().ticks(&[1, 3, 1]).nine(WRITE, 0);
    assert!(!record.chip(0, 0, 0, &[]).never_pulls());
    // START, STOP: bits are ignored.
    let record = Record::new().ticks(&[1, 3]).nine(WRITE, 0);
    assert!(record.chip(0, 0, 0, &[]).never_pulls());
    // START then STOP in the high time behind a written byte: START has
    // dropped the latch, so STOP stores nothing. STOP, START: stored.
    let written = pointed(0, 0).nine(0x12, 0);
    let seen = written.clone().ticks(&[2, 3, 1, 3]).chip(0, 0, 40, &[]);
    assert_eq!((seen.stored(), seen.busy), (vec![], 0));
    let seen = written.ticks(&[0, 1, 3, 1]).chip(0, 0, 40, &[]);
    assert_eq!((seen.stored(), seen.busy), (vec![(0, 0x12)], 39));
    // SDA that moves in the same tick as SCL is neither: SDA falls with SCL's
    // fall and with its rise.
    let record = Record::new().ticks(&[3, 0]).nine(WRITE, 0);
    assert!(record.chip(0, 0, 0, &[]).never_pulls());
    let record = Record::new().ticks(&[3, 2, 1]).nine(WRITE, 0);
    assert!(record.chip(0, 0, 0, &[]).never_pulls());
    let seen = pointed(0, 0).nine(0x12, 0).ticks(&[0, 3, 3, 1, 2, 3]).chip(0, 0, 40, &[]);
    assert_eq!(seen.stored(), []);
}

#[test]
fn the_noted_bit_is_the_one_at_the_rise() {
    // SDA moves with SCL's fall: the delivered bit is the noted one. All bits
    // of the address byte with SDA turned over in the low time's first tick,
    // and set together with the rise.
    let mut record = Record::new().start();
    for n in 0..8 {
        let bit = WRITE >> (7 - n) & 1;
        record = record.ticks(&[(1 - bit) << 1, bit << 1 | 1]);
    }
    let seen = record.bit(0).chip(0, 0, 0, &[]);
    assert!(!seen.never_pulls());
}

#[test]
fn reading_24_a_stop_in_the_ninths_high_time_stores() {
    // The eighth bit is delivered when SCL falls for the ninth.
    let record = pointed(0, 5).byte(0x99).ticks(&[0, 1, 3]);
    let seen = record.chip(0, 0, 40, &[]);
    assert_eq!((seen.stored(), seen.pointer, seen.busy), (vec![(5, 0x99)], 6, 40));
    // A STOP in the eighth bit's high time: loose bits, nothing stored.
    let mut record = pointed(0, 5);
    for _ in 0..7 {
        record = record.bit(0);
    }
    let seen = record.clone().ticks(&[0, 1, 3]).chip(0, 0, 40, &[]);
    assert_eq!((seen.stored(), seen.pointer, seen.busy), (vec![], 5, 0));
}

#[test]
fn loose_bits_are_dropped_and_stop_still_stores() {
    let record = pointed(0, 5).nine(0x99, 0).bit(1).bit(0).bit(1).stop();
    let seen = record.chip(0, 0, 40, &[]);
    assert_eq!((seen.stored(), seen.pointer, seen.busy), (vec![(5, 0x99)], 6, 40));
    // START inside a byte drops them, and the latch.
    let record = pointed(0, 5).nine(0x99, 0).bit(1).restart().nine(WRITE, 0).stop();
    let seen = record.chip(0, 0, 40, &[]);
    assert_eq!((seen.stored(), seen.pointer, seen.busy), (vec![], 6, 0));
    assert!(seen.pulls(seen.drives.len() - 4));
}

#[test]
fn reading_25_a_start_between_the_pointer_bytes() {
    let record = Record::new().start().nine(WRITE, 0).nine(0x07, 0).restart();
    let seen = record.nine(WRITE, 0).nine(0x01, 0).nine(0x23, 0).stop().chip(9, 0, 0, &[]);
    assert_eq!(seen.pointer, 0x123);
    let list = [2, 0, 0, 0x50, 0, 1, 7, 0x50, 0, 2, 1, 0x23];
    assert_eq!(Board::bench().both(&list).pointer(0), 0x123);
    // Also for a data byte behind a new START: it is a pointer byte again.
    let list = [2, 0, 0, 0x50, 0, 3, 1, 2, 3, 0x50, 0, 1, 9];
    let left = Board::bench().both(&list);
    assert_eq!((left.pointer(0), left.busy(0)), (0x103, 0));
}

#[test]
fn reading_26_every_run_starts_free_and_not_addressed() {
    // The record begins with SDA 0 while SCL is 1: that is a START.
    let record = Record::new().ticks(&[1]).nine(WRITE, 0);
    assert!(!record.chip(0, 0, 0, &[]).never_pulls());
    // It begins with SCL 0: no START, no bit.
    let record = Record::new().ticks(&[0]).nine(WRITE, 0).nine(WRITE, 0);
    assert!(record.chip(0, 0, 0, &[]).never_pulls());
    // A latch and an address do not live on.
    let first = pointed(0, 0).nine(0x12, 0).chip(0, 0, 40, &[]);
    assert_eq!((first.pointer, first.stored()), (1, vec![]));
    let second = Record::new().ticks(&[0, 1, 3]).nine(0x34, 0).chip(first.pointer, 0, 40, &[]);
    assert_eq!((second.pointer, second.stored(), second.busy), (1, vec![], 0));
    assert!(second.never_pulls());
}

#[test]
fn bits_after_stop_are_ignored() {
    let seen = Record::new().start().stop().nine(WRITE, 0).nine(0, 0).chip(0, 0, 0, &[]);
    assert!(seen.never_pulls());
    // In the middle of a read too: STOP lets go of SDA at once.
    let lead = Record::new().start().nine(READ, 0).bit(0).bit(0);
    let stop = lead.len() + 3;
    let seen = lead.ticks(&[0, 1, 3]).nine(0, 0).chip(0, 0, 0, &[(0, 0), (1, 0)]);
    assert!(seen.pulls(stop - 1));
    assert!((stop..seen.drives.len()).all(|tick| !seen.pulls(tick)));
    assert_eq!(seen.pointer, 0);
}

#[test]
fn stop_empties_the_latch() {
    // A second STOP without a START between: SDA falls while SCL is low. It
    // stores nothing, and the busy time goes on falling.
    let record = pointed(0, 5).nine(0x99, 0).stop().idle(4).ticks(&[2, 0, 1, 3]);
    let seen = record.chip(0, 0, 40, &[]);
    assert_eq!((seen.stored(), seen.busy), (vec![(5, 0x99)], 32));
}

#[test]
fn the_pointers_top_bits_are_ignored() {
    let seen = pointed(0xF1, 0x23).nine(0x55, 0).stop().chip(0, 0, 0, &[]);
    assert_eq!((seen.stored(), seen.pointer), (vec![(0x123, 0x55)], 0x124));
    let left = Board::bench().both(&[1, 0, 0, 0x50, 0, 2, 0xFF, 0xFF]);
    assert_eq!(left.pointer(0), 4095);
}

#[test]
fn a_page_wraps_and_the_last_byte_for_a_place_wins() {
    let mut list = vec![1, 0, 0, 0x50, 0, 64, 0x0F, 0xFE];
    list.extend(0..62);
    let left = Board::bench().both(&list);
    // 62 bytes from 4,094: byte i goes to 4,064 + (30 + i) mod 32.
    for i in 0..32usize {
        let last = if i < 30 { 32 + i } else { i };
        assert_eq!(left.memory[4064 + (30 + i) % 32], last as u8);
    }
    assert!(left.memory[..4064].iter().all(|&byte| byte == 0xFF));
    assert_eq!(left.pointer(0), 4064 + (30 + 62) % 32);
}

#[test]
fn busy_is_counted_from_stop() {
    // Write one byte, then ask again: busy for exactly the asked time.
    let ask = |asked: u16, wait: u8| {
        let list = [1, 0, 0, 0x50, 0, 3, 0, 0, 1, 1, wait, 0, 0x50, 0, 0];
        Board::bench().asked(asked).both(&list).results[4]
    };
    assert_eq!([ask(36, 0), ask(37, 0), ask(37, 1)], [1, 0, 1]);
    assert_eq!([ask(100, 63), ask(100, 64), ask(0, 0)], [0, 1, 1]);
}

#[test]
fn only_its_own_address_names_it() {
    for strap in 0..8 {
        let marks = 1u8 << strap;
        for address in 0..128 {
            let left = Board::of(marks).both(&[1, 0, 0, address, 0, 0]);
            assert_eq!(left.results[1], (address == 80 + strap) as u8);
        }
    }
}
