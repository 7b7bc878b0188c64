//! Cases for the whole-bus run and the plain reading.

use super::lists::{self, damage};
use super::Rng;
use crate::answer::Answer;
use crate::{form, plain, wires};

/// Everything that a call is lent, owned.
#[derive(Clone, Debug, PartialEq, Eq)]
pub struct BusCase {
    pub list: Vec<u8>,
    pub marks: u8,
    pub memory: Vec<u8>,
    pub states: Vec<u8>,
    pub holds: Vec<u8>,
    pub asked: u16,
    pub results: Vec<u8>,
    pub trace: Vec<u8>,
}

impl BusCase {
    /// The whole-bus run on this case, in place.
    pub fn run(&mut self) -> Answer {
        wires::run(
            &self.list,
            self.marks,
            &mut self.memory,
            &mut self.states,
            &self.holds,
            self.asked,
            &mut self.results,
            &mut self.trace,
        )
    }

    /// The plain reading on this case, in place. The trace stays.
    pub fn read(&mut self) -> Answer {
        plain::read(
            &self.list,
            self.marks,
            &mut self.memory,
            &mut self.states,
            &self.holds,
            self.asked,
            &mut self.results,
        )
    }

    /// The busy ticks left of the chip in this place.
    fn busy(&self, place: usize) -> usize {
        u16::from_le_bytes([self.states[4 * place + 2], self.states[4 * place + 3]]) as usize
    }

    /// A wait that puts the answer of the next transaction's first message
    /// right at the tick where its chip becomes free, or one or two beside.
    fn edge_wait(&self, rng: &mut Rng, address: u8) -> Option<u16> {
        if !(80..88).contains(&address) || self.marks & 1 << (address - 80) == 0 {
            return None;
        }
        let place = (self.marks & ((1 << (address - 80)) - 1)).count_ones() as usize;
        let mut past = self.clone();
        past.results = vec![0; form::result_size(&self.list)?];
        let (_, clocked) = plain::read_and_count(
            &past.list,
            past.marks,
            &mut past.memory,
            &mut past.states,
            &past.holds,
            past.asked,
            &mut past.results,
        );
        let held: usize = past.holds.iter().skip(clocked).take(8).map(|&hold| hold as usize).sum();
        let wait = past.busy(place) + rng.below(4);
        Some(wait.saturating_sub(36 + held + 2) as u16)
    }
}

/// Hold bytes: none, all the same, sparse, or any from 0 to 16.
fn holds(rng: &mut Rng) -> Vec<u8> {
    let count = rng.pick(&[0, 0, 5, 20, 100, 400]);
    let most = rng.pick(&[1, 3, 16]);
    let share = rng.pick(&[5, 50, 100]);
    (0..count).map(|_| if rng.chance(share) { rng.range(0, most) as u8 } else { 0 }).collect()
}

/// A busy time, with a bent for the ticks where a first transaction without
/// wait asks its messages.
fn busy_time(rng: &mut Rng) -> u16 {
    let ticks = match rng.below(10) {
        0..=3 => 0,
        4..=6 => 35 + 40 * rng.below(8) + rng.below(3),
        7 => rng.below(60),
        8 => rng.below(600),
        _ => rng.pick(&[1, 36, 37, 8_000, 19_999, 20_000]),
    };
    ticks as u16
}

fn state(rng: &mut Rng) -> Vec<u8> {
    let pointer = match rng.below(4) {
        0 => 4095,
        1 => rng.below(4096) as u16 | 0x1F,
        2 => rng.range(4090, 4095) as u16,
        _ => rng.below(4096) as u16,
    };
    let mut state = pointer.to_le_bytes().to_vec();
    state.extend(busy_time(rng).to_le_bytes());
    state
}

/// A case around a given list: board, states, holds and room are random.
pub fn bus_of(rng: &mut Rng, list: Vec<u8>) -> BusCase {
    let marks = match rng.below(8) {
        0 => 0,
        1 => 0xFF,
        2 | 3 => rng.byte(),
        4 => 1,
        _ => 1 << rng.below(8) | 1 << rng.below(8),
    };
    let chips = marks.count_ones() as usize;
    let room = form::result_size(&list).unwrap_or(0) + rng.pick(&[0, 0, 1, 7]);
    BusCase {
        list,
        marks,
        memory: rng.bytes(chips * 4096),
        states: (0..chips).flat_map(|_| state(rng)).collect(),
        holds: holds(rng),
        asked: busy_time(rng),
        results: rng.bytes(room),
        trace: vec![0xEE; rng.pick(&[0, 1, 40, 700, 5_000])],
    }
}

/// An accepted case: several transactions, page wraps, busy edges, holds.
pub fn bus(rng: &mut Rng) -> BusCase {
    let mut case = bus_of(rng, Vec::new());
    for _ in 0..rng.pick(&[1, 1, 2, 3, 5, 7]) {
        let messages = lists::messages(rng, case.marks);
        let edge = if rng.chance(50) { case.edge_wait(rng, messages[0][0]) } else { None };
        let wait = match edge {
            Some(wait) => wait,
            None if rng.chance(60) => 0,
            None if rng.chance(95) => rng.below(120) as u16,
            None => rng.byte() as u16 * 40,
        };
        case.list.extend(lists::transaction(wait, &messages));
        if case.list.len() > form::LONGEST_LIST {
            case.list.clear();
        }
    }
    let room = form::result_size(&case.list).unwrap_or(0) + rng.pick(&[0, 0, 1, 7]);
    case.results = rng.bytes(room);
    case
}

/// A case that is mostly to be refused, often for more than one reason.
pub fn bus_damaged(rng: &mut Rng) -> BusCase {
    let mut case = bus(rng);
    for _ in 0..rng.pick(&[1, 1, 2, 3]) {
        match rng.below(12) {
            0..=2 => damage(rng, &mut case.list),
            3 => {
                let size = rng.range(4094, 4099);
                case.list = lists::list_of_size(rng, size);
                let room = form::result_size(&case.list).unwrap_or(0);
                case.results = rng.bytes(room);
            }
            4 => resize(rng, &mut case.memory),
            5 => resize(rng, &mut case.states),
            6 => case.marks ^= 1 << rng.below(8),
            7 | 8 if !case.states.is_empty() => bad_state(rng, &mut case.states),
            9 => {
                let hold = rng.pick(&[16, 17, 18, 255]);
                let at = rng.below(case.holds.len() + 1);
                case.holds.insert(at, hold);
            }
            10 => case.asked = rng.pick(&[20_000, 20_001, 30_000, 65_535]),
            _ => shorten(rng, &mut case.results),
        }
    }
    case
}

/// One byte more or less, a whole chip's worth more or less, or nothing left.
pub(super) fn resize(rng: &mut Rng, lent: &mut Vec<u8>) {
    let size = lent.len();
    let size = match rng.below(5) {
        0 => size + 1,
        1 => size.saturating_sub(1),
        2 => size + rng.pick(&[4, 4096]),
        3 => size.saturating_sub(rng.pick(&[4, 4096])),
        _ => 0,
    };
    lent.resize(size, 0);
}

/// Cuts one byte or more off the end.
pub(super) fn shorten(rng: &mut Rng, lent: &mut Vec<u8>) {
    let cut = rng.pick(&[1, 1, 2, 8, 1000]);
    lent.truncate(lent.len().saturating_sub(cut));
}

/// Puts a pointer or a busy time at or over its limit into a state.
pub(super) fn bad_state(rng: &mut Rng, states: &mut [u8]) {
    let chip = rng.below(states.len().div_ceil(4));
    let (part, value) = if rng.chance(50) {
        (0, rng.pick(&[4095u16, 4096, 4097, 0x8000, 0xFFFF]))
    } else {
        (2, rng.pick(&[20_000u16, 20_001, 30_000, 0xFFFF]))
    };
    for (i, byte) in value.to_le_bytes().into_iter().enumerate() {
        if let Some(place) = states.get_mut(4 * chip + part + i) {
            *place = byte;
        }
    }
}
