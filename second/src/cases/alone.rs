//! Cases for the two "alone" entries.

use super::bus::{bad_state, resize, shorten};
use super::{lists, samples, Rng};
use crate::answer::{Answer, End};
use crate::{chip as chip_entry, controller as controller_entry, form};

/// Everything that the controller alone is lent, owned.
#[derive(Clone, Debug, PartialEq, Eq)]
pub struct ControllerCase {
    pub list: Vec<u8>,
    pub samples: Vec<u8>,
    pub drives: Vec<u8>,
    pub results: Vec<u8>,
}

impl ControllerCase {
    pub fn run(&mut self) -> (u8, End, u64) {
        controller_entry::alone(&self.list, &self.samples, &mut self.drives, &mut self.results)
    }
}

/// Everything that one chip alone is lent, owned.
#[derive(Clone, Debug, PartialEq, Eq)]
pub struct ChipCase {
    pub strap: u8,
    pub memory: Vec<u8>,
    pub state: Vec<u8>,
    pub asked: u16,
    pub samples: Vec<u8>,
    pub drives: Vec<u8>,
}

impl ChipCase {
    pub fn run(&mut self) -> Answer {
        chip_entry::alone(
            self.strap,
            &mut self.memory,
            &mut self.state,
            self.asked,
            &self.samples,
            &mut self.drives,
        )
    }
}

/// The most ticks of a record that is taken from a run.
const LONGEST: usize = 6_000;

/// A bus case, run, with a trace of its ticks: the case before the run and the
/// trace.
fn traced(rng: &mut Rng) -> (super::BusCase, Vec<u8>) {
    let mut case = super::bus(rng);
    case.trace = vec![0; LONGEST];
    let before = case.clone();
    let ticks = case.run().ticks as usize;
    case.trace.truncate(ticks);
    (before, case.trace)
}

/// An accepted case for the controller alone.
pub fn controller(rng: &mut Rng) -> ControllerCase {
    let (list, samples) = match rng.below(8) {
        0 => {
            let list = lists::right_list(rng, 1);
            let ticks = rng.below(80);
            (list, samples::arbitrary(rng, ticks))
        }
        1..=3 => {
            let (case, mut samples) = traced(rng);
            samples::corrupt(rng, &mut samples);
            (case.list, samples)
        }
        _ => {
            let list = lists::right_list(rng, 1);
            let wrong = rng.pick(&[0, 1, 2, 20]);
            let mut samples = samples::reactive(rng, &list, wrong, LONGEST);
            if rng.chance(20) {
                samples.truncate(samples.len() - rng.below(samples.len() + 1));
            }
            (list, samples)
        }
    };
    let mut samples = samples;
    // Something behind the end, now and then.
    if rng.chance(30) {
        let more = rng.below(6);
        samples.extend(samples::arbitrary(rng, more));
    }
    let room = form::result_size(&list).unwrap_or(0) + rng.pick(&[0, 0, 3]);
    let more = rng.pick(&[0, 0, 3]);
    ControllerCase {
        drives: vec![0xEE; samples.len() + more],
        results: rng.bytes(room),
        list,
        samples,
    }
}

/// A case for the controller alone that is mostly to be refused.
pub fn controller_damaged(rng: &mut Rng) -> ControllerCase {
    let mut case = controller(rng);
    for _ in 0..rng.pick(&[1, 1, 2, 3]) {
        match rng.below(6) {
            0 | 1 => lists::damage(rng, &mut case.list),
            2 => {
                let size = rng.range(4094, 4099);
                case.list = lists::list_of_size(rng, size);
                let room = form::result_size(&case.list).unwrap_or(0);
                case.results = rng.bytes(room);
            }
            3 => bad_sample(rng, &mut case.samples),
            4 => shorten(rng, &mut case.drives),
            _ => shorten(rng, &mut case.results),
        }
    }
    case
}

/// An accepted case for one chip alone.
pub fn chip(rng: &mut Rng) -> ChipCase {
    let mut strap = rng.below(8) as u8;
    let mut memory = rng.bytes(4096);
    let mut state = (rng.below(4096) as u16).to_le_bytes().to_vec();
    if rng.chance(20) {
        state = 4095u16.to_le_bytes().to_vec();
    }
    let busy = if rng.chance(60) { 0 } else { rng.below(150) as u16 };
    state.extend(busy.to_le_bytes());
    let mut asked = rng.pick(&[0, 1, 5, 40, 100, 20_000]);
    let samples = match rng.below(8) {
        0 => {
            let ticks = rng.below(300);
            samples::arbitrary(rng, ticks)
        }
        1 => {
            let ticks = rng.below(1500);
            samples::wandering(rng, ticks)
        }
        2 | 3 => {
            let (case, mut samples) = traced(rng);
            let straps: Vec<u8> = (0..8).filter(|s| case.marks & 1 << s != 0).collect();
            if !straps.is_empty() {
                let place = rng.below(straps.len());
                strap = straps[place];
                memory = case.memory[4096 * place..4096 * place + 4096].to_vec();
                state = case.states[4 * place..4 * place + 4].to_vec();
                asked = case.asked;
            }
            samples::corrupt(rng, &mut samples);
            samples
        }
        _ => {
            let mut samples = samples::scripted(rng, strap);
            if rng.chance(50) {
                samples::corrupt(rng, &mut samples);
            }
            samples
        }
    };
    let more = rng.pick(&[0, 0, 3]);
    ChipCase { strap, memory, state, asked, drives: vec![0xEE; samples.len() + more], samples }
}

/// A case for one chip alone that is mostly to be refused.
pub fn chip_damaged(rng: &mut Rng) -> ChipCase {
    let mut case = chip(rng);
    for _ in 0..rng.pick(&[1, 1, 2, 3]) {
        match rng.below(7) {
            0 => case.strap = rng.pick(&[7, 8, 9, 80, 255]),
            1 => resize(rng, &mut case.memory),
            2 => resize(rng, &mut case.state),
            3 if !case.state.is_empty() => bad_state(rng, &mut case.state),
            4 => case.asked = rng.pick(&[20_000, 20_001, 65_535]),
            5 => bad_sample(rng, &mut case.samples),
            _ => shorten(rng, &mut case.drives),
        }
    }
    case
}

/// Puts a sample at or over its limit somewhere, often at the end.
fn bad_sample(rng: &mut Rng, samples: &mut Vec<u8>) {
    let bad = rng.pick(&[3, 4, 5, 128, 255]);
    if samples.is_empty() {
        samples.push(bad);
    } else if rng.chance(40) {
        let last = samples.len() - 1;
        samples[last] = bad;
    } else {
        let at = rng.below(samples.len());
        samples[at] = bad;
    }
}
