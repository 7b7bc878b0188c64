//! The plain reading: what a list does, told by messages and bytes. It knows
//! no wires, no phases and no chip states but pointer and busy time; it uses
//! none of the modules that drive or see lines.

use crate::answer::Answer;
use crate::form::{self, Head};
use crate::refuse;

/// A chip as the plain reading knows it.
#[derive(Clone, Copy)]
struct Plain {
    pointer: usize,
    /// The tick from which on it answers. A busy time of B after t ticks means
    /// that it falls by one in each tick from tick t on and, an answer being
    /// decided before that tick's fall, is 0 from tick t + B on.
    free_from: u64,
}

/// The reading under way.
struct Reading<'a> {
    list: &'a [u8],
    holds: &'a [u8],
    asked: u64,
    marks: u8,
    chips: [Plain; 8],
    /// Ticks past, which is also the number of the tick that comes.
    ticks: u64,
    /// Clocked symbols past.
    clocked: usize,
}

impl Reading<'_> {
    /// The place in memory of the chip with this address, if there is one:
    /// the count of ones below its bit.
    fn place(&self, address: u8) -> Option<usize> {
        if !(80..88).contains(&address) {
            return None;
        }
        let bit = 1u8 << (address - 80);
        if self.marks & bit == 0 {
            return None;
        }
        Some((self.marks & (bit - 1)).count_ones() as usize)
    }

    /// The time of clocked symbols: four ticks each and its hold byte, "past
    /// the list's end, 0".
    fn pass(&mut self, symbols: usize) {
        for _ in 0..symbols {
            self.ticks += 4 + self.holds.get(self.clocked).copied().unwrap_or(0) as u64;
            self.clocked += 1;
        }
    }

    /// START, the address byte and its answer: the place of the chip that
    /// acknowledged, if one did.
    fn address(&mut self, head: &Head, first: bool) -> Option<usize> {
        if first {
            // "All symbols but the first START are clocked."
            self.ticks += 4;
        } else {
            self.pass(1);
        }
        self.pass(8);
        // The eighth bit is delivered in the first tick of the ninth symbol,
        // where SCL falls; there it is decided once whether a chip answers.
        let place = self.place(head.address);
        let free = place.filter(|&place| self.chips[place].free_from <= self.ticks);
        self.pass(1);
        free
    }

    /// A transaction from its list place on; gives the places after it in the
    /// list and in the result area.
    fn transaction(
        &mut self,
        at: usize,
        slot: usize,
        memory: &mut [u8],
        results: &mut [u8],
    ) -> (usize, usize) {
        let Some((count, wait)) = form::transaction_at(self.list, at) else {
            return (self.list.len(), slot);
        };
        let (outcome, mut at, mut slot) = (slot, at + 3, slot + 1);
        self.ticks += wait as u64;
        // What STOP will store: the chip's place and the bytes written last,
        // as (list place, memory place). Each START drops it.
        let mut latch = [(0usize, 0usize); 64];
        let mut latched = 0;
        let mut over = false;
        for number in 0..count {
            let Some(head) = Head::at(self.list, at) else { break };
            if !over {
                latched = 0;
                match self.address(&head, number == 0) {
                    // "a critical one ends the transaction by STOP, a
                    // non-critical one lets the next message follow"
                    None => over = head.is_critical(),
                    Some(place) => {
                        results[slot] = 1;
                        results[slot + 1] = head.length as u8;
                        self.pass(9 * head.length);
                        if head.is_read() {
                            let bytes = &mut results[slot + 2..slot + 2 + head.length];
                            self.read_bytes(place, memory, bytes);
                        } else {
                            latched = self.written(place, at + 3, head.length, &mut latch);
                        }
                    }
                }
            }
            at += head.list_size();
            slot += head.result_size();
        }
        self.pass(1);
        results[outcome] = 0;
        self.store(&latch[..latched], memory);
        (at, slot)
    }

    /// "Read, it sends the byte at the pointer; the pointer steps modulo
    /// 4,096" - for the last byte too.
    fn read_bytes(&mut self, place: usize, memory: &[u8], bytes: &mut [u8]) {
        for byte in bytes {
            *byte = memory[place * 4096 + self.chips[place].pointer];
            self.chips[place].pointer = (self.chips[place].pointer + 1) % 4096;
        }
    }

    /// The data of a write: two bytes set the pointer, one alone nothing, the
    /// others are latched, the pointer wrapping inside its page. Gives how
    /// many were latched.
    fn written(
        &mut self,
        place: usize,
        data: usize,
        length: usize,
        latch: &mut [(usize, usize); 64],
    ) -> usize {
        if length < 2 {
            return 0;
        }
        let (high, low) = (self.list[data] as usize, self.list[data + 1] as usize);
        // "the top four bits ignored"
        let pointer = (high * 256 + low) % 4096;
        let page = pointer / 32 * 32;
        for i in 2..length {
            latch[i - 2] = (data + i, place * 4096 + page + (pointer + i - 2) % 32);
        }
        self.chips[place].pointer = page + (pointer + length - 2) % 32;
        length - 2
    }

    /// STOP: "stores the latch (last byte for a place wins) and sets busy to
    /// the asked time", if there is at least one latched byte.
    fn store(&mut self, latch: &[(usize, usize)], memory: &mut [u8]) {
        for &(from, to) in latch {
            memory[to] = self.list[from];
        }
        if let Some(&(_, to)) = latch.first() {
            // STOP is seen in its last tick; busy falls in each tick after it.
            self.chips[to / 4096].free_from = self.ticks + self.asked;
        }
    }
}

/// Reads the list plainly. Refusals 1 to 7 change nothing.
pub fn read(
    list: &[u8],
    marks: u8,
    memory: &mut [u8],
    states: &mut [u8],
    holds: &[u8],
    asked: u16,
    results: &mut [u8],
) -> Answer {
    read_and_count(list, marks, memory, states, holds, asked, results).0
}

/// As `read`, and the number of clocked symbols (for the case generator).
pub(crate) fn read_and_count(
    list: &[u8],
    marks: u8,
    memory: &mut [u8],
    states: &mut [u8],
    holds: &[u8],
    asked: u16,
    results: &mut [u8],
) -> (Answer, usize) {
    if let Err(number) = refuse::bus(list, marks, memory, states, holds, asked, results) {
        return (Answer::refused(number), 0);
    }
    form::start_area(list, results);
    let mut reading = Reading {
        list,
        holds,
        asked: asked as u64,
        marks,
        chips: [Plain { pointer: 0, free_from: 0 }; 8],
        ticks: 0,
        clocked: 0,
    };
    for (chip, state) in reading.chips.iter_mut().zip(states.chunks_exact(4)) {
        chip.pointer = u16::from_le_bytes([state[0], state[1]]) as usize;
        chip.free_from = u16::from_le_bytes([state[2], state[3]]) as u64;
    }
    let (mut at, mut slot) = (0, 0);
    while at < list.len() {
        (at, slot) = reading.transaction(at, slot, memory, results);
    }
    for (chip, state) in reading.chips.iter().zip(states.chunks_exact_mut(4)) {
        let busy = chip.free_from.saturating_sub(reading.ticks) as u16;
        state[0..2].copy_from_slice(&(chip.pointer as u16).to_le_bytes());
        state[2..4].copy_from_slice(&busy.to_le_bytes());
    }
    (Answer::accepted(reading.ticks), reading.clocked)
}
