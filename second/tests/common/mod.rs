//! What the tests share: the bench board, and records written by hand.
#![allow(dead_code)]

use second::controller::Controller;
use second::lines::Lines;
use second::{chip, controller, form, plain, wires, Answer, End};

/// The bench board, lent anew to each run.
#[derive(Clone, Debug, PartialEq, Eq)]
pub struct Board {
    pub marks: u8,
    pub memory: Vec<u8>,
    pub states: Vec<u8>,
    pub holds: Vec<u8>,
    pub asked: u16,
}

/// What a run left behind.
#[derive(Clone, Debug, PartialEq, Eq)]
pub struct Left {
    pub answer: Answer,
    pub memory: Vec<u8>,
    pub states: Vec<u8>,
    pub results: Vec<u8>,
}

impl Left {
    pub fn pointer(&self, place: usize) -> u16 {
        u16::from_le_bytes([self.states[4 * place], self.states[4 * place + 1]])
    }

    pub fn busy(&self, place: usize) -> u16 {
        u16::from_le_bytes([self.states[4 * place + 2], self.states[4 * place + 3]])
    }
}

impl Board {
    /// "Chip 0 only, memory all FF, pointer 0, not busy, asked busy time
    /// 8,000, hold list empty"
    pub fn bench() -> Board {
        Board::of(1)
    }

    pub fn of(marks: u8) -> Board {
        let chips = marks.count_ones() as usize;
        Board {
            marks,
            memory: vec![0xFF; 4096 * chips],
            states: vec![0; 4 * chips],
            holds: Vec::new(),
            asked: 8000,
        }
    }

    pub fn state(mut self, place: usize, pointer: u16, busy: u16) -> Board {
        self.states[4 * place..][..2].copy_from_slice(&pointer.to_le_bytes());
        self.states[4 * place + 2..][..2].copy_from_slice(&busy.to_le_bytes());
        self
    }

    pub fn holds(mut self, holds: &[u8]) -> Board {
        self.holds = holds.to_vec();
        self
    }

    pub fn asked(mut self, asked: u16) -> Board {
        self.asked = asked;
        self
    }

    /// The whole-bus run with this room for results and a long trace, cut to
    /// the run's ticks.
    pub fn wires(&self, list: &[u8], room: usize) -> (Left, Vec<u8>) {
        let (mut memory, mut states) = (self.memory.clone(), self.states.clone());
        let (mut results, mut trace) = (vec![0xDD; room], vec![0xDD; 100_000]);
        let answer = wires::run(
            list,
            self.marks,
            &mut memory,
            &mut states,
            &self.holds,
            self.asked,
            &mut results,
            &mut trace,
        );
        assert!(trace[answer.ticks as usize..].iter().all(|&byte| byte == 0xDD));
        trace.truncate(answer.ticks as usize);
        (Left { answer, memory, states, results }, trace)
    }

    pub fn plain(&self, list: &[u8], room: usize) -> Left {
        let (mut memory, mut states) = (self.memory.clone(), self.states.clone());
        let mut results = vec![0xDD; room];
        let answer = plain::read(
            list,
            self.marks,
            &mut memory,
            &mut states,
            &self.holds,
            self.asked,
            &mut results,
        );
        Left { answer, memory, states, results }
    }

    /// Both entries on the list with exactly R bytes of room; they must agree.
    pub fn both(&self, list: &[u8]) -> Left {
        let room = form::result_size(list).unwrap_or(0);
        let (left, _) = self.wires(list, room);
        assert_eq!(left, self.plain(list, room));
        left
    }

    pub fn trace(&self, list: &[u8]) -> Vec<u8> {
        self.wires(list, form::result_size(list).unwrap_or(0)).1
    }
}

/// The controller alone: end, ticks, drives, results (R bytes of room).
pub fn controller_on(list: &[u8], samples: &[u8]) -> (End, u64, Vec<u8>, Vec<u8>) {
    let mut drives = vec![0xEE; samples.len()];
    let mut results = vec![0xDD; form::result_size(list).unwrap()];
    let (number, end, ticks) = controller::alone(list, samples, &mut drives, &mut results);
    assert_eq!(number, 0);
    assert!(drives[ticks as usize..].iter().all(|&byte| byte == 0xEE));
    drives.truncate(ticks as usize);
    (end, ticks, drives, results)
}

/// A record for the list in which nobody else is on the bus but at the ticks
/// where `others` pulls: it gets the tick and gives what the others drive.
pub fn record(list: &[u8], others: impl Fn(usize) -> u8) -> Vec<u8> {
    let mut results = vec![0; form::result_size(list).unwrap()];
    let mut controller = Controller::new(list);
    let mut samples = Vec::new();
    while controller.end().is_none() {
        let seen = controller.drives().and(Lines::of(others(samples.len())));
        samples.push(seen.byte());
        controller.see(seen, &mut results);
    }
    samples
}

/// A record written at the wires by hand, for one chip.
#[derive(Clone, Debug, Default)]
pub struct Record {
    pub samples: Vec<u8>,
}

impl Record {
    pub fn new() -> Record {
        Record::default()
    }

    pub fn ticks(mut self, samples: &[u8]) -> Record {
        self.samples.extend(samples);
        self
    }

    pub fn idle(mut self, ticks: usize) -> Record {
        self.samples.extend(vec![3; ticks]);
        self
    }

    /// START from a high clock (idle, or after STOP).
    pub fn start(self) -> Record {
        self.ticks(&[3, 1])
    }

    /// START after a bit: SCL low, SDA up, SCL up, SDA down.
    pub fn restart(self) -> Record {
        self.ticks(&[2, 3, 1])
    }

    /// SCL low, SCL up, with SDA at the bit.
    pub fn bit(self, bit: u8) -> Record {
        self.ticks(&[bit << 1, bit << 1 | 1])
    }

    pub fn byte(mut self, byte: u8) -> Record {
        for n in 0..8 {
            self = self.bit(byte >> (7 - n) & 1);
        }
        self
    }

    /// A byte and its ninth bit.
    pub fn nine(self, byte: u8, ninth: u8) -> Record {
        self.byte(byte).bit(ninth)
    }

    /// SCL low, SDA low, SCL up, SDA up.
    pub fn stop(self) -> Record {
        self.ticks(&[0, 1, 3])
    }

    pub fn len(&self) -> usize {
        self.samples.len()
    }

    /// Chip 0 on this record, memory all FF but for the places given.
    pub fn chip(&self, pointer: u16, busy: u16, asked: u16, bytes: &[(usize, u8)]) -> Seen {
        let mut memory = vec![0xFF; 4096];
        for &(place, byte) in bytes {
            memory[place] = byte;
        }
        let mut state = pointer.to_le_bytes().to_vec();
        state.extend(busy.to_le_bytes());
        let mut drives = vec![0xEE; self.samples.len()];
        let answer = chip::alone(0, &mut memory, &mut state, asked, &self.samples, &mut drives);
        assert_eq!(answer, Answer { number: 0, ticks: self.samples.len() as u64 });
        Seen {
            memory,
            pointer: u16::from_le_bytes([state[0], state[1]]),
            busy: u16::from_le_bytes([state[2], state[3]]),
            drives,
        }
    }
}

/// What a chip alone left behind.
#[derive(Clone, Debug, PartialEq, Eq)]
pub struct Seen {
    pub memory: Vec<u8>,
    pub pointer: u16,
    pub busy: u16,
    pub drives: Vec<u8>,
}

impl Seen {
    /// Whether it pulled SDA in this tick.
    pub fn pulls(&self, tick: usize) -> bool {
        self.drives[tick] == 1
    }

    pub fn never_pulls(&self) -> bool {
        self.drives.iter().all(|&drive| drive == 3)
    }

    /// The places that are not FF.
    pub fn stored(&self) -> Vec<(usize, u8)> {
        let bytes = self.memory.iter().copied().enumerate();
        bytes.filter(|&(_, byte)| byte != 0xFF).collect()
    }
}
