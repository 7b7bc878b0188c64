//! The EEPROM: its own eye on the lines, its pointer, latch and busy time,
//! and the entry that runs one chip alone on a record of samples.

use crate::answer::Answer;
use crate::lines::Lines;
use crate::refuse;

const PAGE: usize = 32;

/// The bytes of one page that wait for STOP. Inside a message the pointer
/// stays in its page, so one page is enough.
#[derive(Clone, Copy, Debug)]
struct Latch {
    page: usize,
    bytes: [u8; PAGE],
    taken: [bool; PAGE],
    any: bool,
}

impl Latch {
    const EMPTY: Latch = Latch { page: 0, bytes: [0; PAGE], taken: [false; PAGE], any: false };

    /// "last byte for a place wins"
    fn put(&mut self, pointer: u16, byte: u8) {
        let place = pointer as usize;
        self.page = place - place % PAGE;
        self.bytes[place % PAGE] = byte;
        self.taken[place % PAGE] = true;
        self.any = true;
    }

    fn store(&self, memory: &mut [u8]) {
        for i in 0..PAGE {
            if self.taken[i] {
                memory[self.page + i] = self.bytes[i];
            }
        }
    }

    fn clear(&mut self) {
        self.taken = [false; PAGE];
        self.any = false;
    }
}

/// The bits of a byte that are in so far.
#[derive(Clone, Copy, Debug)]
struct Bits {
    value: u8,
    count: u8,
}

impl Bits {
    const NONE: Bits = Bits { value: 0, count: 0 };

    fn with(self, bit: bool) -> Bits {
        Bits { value: self.value << 1 | bit as u8, count: self.count + 1 }
    }
}

/// Which byte of a written message comes next.
#[derive(Clone, Copy, Debug)]
enum Part {
    High,
    /// The pointer's low byte; the high one was this.
    Low(u8),
    Data,
}

/// What the chip is at.
#[derive(Clone, Copy, Debug)]
enum Doing {
    /// Not addressed, busy, or silenced: bits are ignored until START.
    Silent,
    /// "After START it takes eight bits."
    Address(Bits),
    /// It pulls SDA for its address; then it sends if it was a read.
    AcksAddress {
        read: bool,
    },
    Takes(Part, Bits),
    /// It pulls SDA for a written byte; then comes the next part.
    AcksByte(Part),
    /// It sends the byte; this many of its bits have been delivered.
    Sends {
        byte: u8,
        done: u8,
    },
    /// The byte is out; its ninth bit is awaited.
    AwaitsNinth,
}

#[derive(Clone, Copy, Debug)]
pub struct Chip {
    address: u8,
    /// The busy time that a STOP sets.
    asked: u16,
    pointer: u16,
    busy: u16,
    /// The tick before.
    before: Lines,
    /// SDA as it was when SCL rose.
    noted: bool,
    /// START or STOP came in this high time.
    edge: bool,
    doing: Doing,
    latch: Latch,
}

impl Chip {
    /// In front of the first tick: "before the first: 1,1, not addressed".
    pub fn new(strap: u8, state: &[u8], asked: u16) -> Chip {
        Chip {
            address: 80 + strap,
            asked,
            pointer: u16::from_le_bytes([state[0], state[1]]),
            busy: u16::from_le_bytes([state[2], state[3]]),
            before: Lines::FREE,
            // open: no bit is noted before SCL first rises. A fall then would
            // deliver one, yet the chip isn't addressed and ignores it: none
            // can tell.
            noted: true,
            edge: false,
            doing: Doing::Silent,
            latch: Latch::EMPTY,
        }
    }

    /// Only pointer and busy live on between runs (reading 26).
    pub fn save(&self, state: &mut [u8]) {
        state[0..2].copy_from_slice(&self.pointer.to_le_bytes());
        state[2..4].copy_from_slice(&self.busy.to_le_bytes());
    }

    /// "It never drives SCL."
    pub fn drives(&self) -> Lines {
        let sda = match self.doing {
            Doing::AcksAddress { .. } | Doing::AcksByte(_) => false,
            Doing::Sends { byte, done } => byte & (0x80 >> done) != 0,
            _ => true,
        };
        Lines::new(true, sda)
    }

    /// "It compares each tick's lines with the tick before."
    pub fn see(&mut self, seen: Lines, memory: &mut [u8]) {
        let mut stored = false;
        match (self.before.scl, seen.scl) {
            // "SCL 1 in both: SDA falling is START, rising is STOP." All of a
            // high time count (reading 23).
            (true, true) => {
                if self.before.sda && !seen.sda {
                    self.start();
                } else if !self.before.sda && seen.sda {
                    stored = self.stop(memory);
                }
            }
            // "SCL rising: SDA is noted."
            // open: where SDA moves in the very tick of the rise, the noted
            // level is taken to be that tick's, not the one of the tick before.
            (false, true) => {
                self.noted = seen.sda;
                self.edge = false;
            }
            // "SCL falling: the noted bit is delivered, unless START or STOP
            // came in that high time." Where SDA is now does not matter.
            (true, false) => {
                if !self.edge {
                    self.deliver(self.noted, memory);
                }
            }
            (false, false) => {}
        }
        // "Busy falls by one in each tick after the STOP's, a starting busy
        // from the first tick on; an answer is decided before that tick's
        // fall." A STOP that stores nothing lets it fall (reading 18).
        if !stored && self.busy > 0 {
            self.busy -= 1;
        }
        self.before = seen;
    }

    /// "START drops the latch, yet the pointer stays moved." It always counts,
    /// lets go of SDA, and drops loose bits.
    fn start(&mut self) {
        self.edge = true;
        self.latch.clear();
        self.doing = Doing::Address(Bits::NONE);
    }

    /// "STOP after at least one latched byte stores the latch ... and sets
    /// busy to the asked time." "STOP also empties the latch, and bits are
    /// then ignored until START." Tells whether it stored.
    fn stop(&mut self, memory: &mut [u8]) -> bool {
        self.edge = true;
        let stores = self.latch.any;
        if stores {
            self.latch.store(memory);
            self.busy = self.asked;
        }
        self.latch.clear();
        self.doing = Doing::Silent;
        stores
    }

    /// A bit is delivered; new drives show from the next tick.
    fn deliver(&mut self, bit: bool, memory: &[u8]) {
        self.doing = match self.doing {
            Doing::Silent => Doing::Silent,
            Doing::Address(bits) => {
                let bits = bits.with(bit);
                if bits.count < 8 {
                    Doing::Address(bits)
                } else {
                    self.addressed(bits.value)
                }
            }
            // "Bits delivered while it sends or acknowledges are ignored":
            // they lose their value and still step the chip on (reading 21).
            Doing::AcksAddress { read: true } => self.send(memory),
            Doing::AcksAddress { read: false } => Doing::Takes(Part::High, Bits::NONE),
            Doing::AcksByte(part) => Doing::Takes(part, Bits::NONE),
            Doing::Takes(part, bits) => {
                let bits = bits.with(bit);
                if bits.count < 8 {
                    Doing::Takes(part, bits)
                } else {
                    Doing::AcksByte(self.take(part, bits.value))
                }
            }
            Doing::Sends { byte, done } => {
                if done < 7 {
                    Doing::Sends { byte, done: done + 1 }
                } else {
                    Doing::AwaitsNinth
                }
            }
            // "the pointer steps modulo 4,096 when the ninth bit is delivered;
            // a 1 there silences it" - and steps it as well (reading 22).
            Doing::AwaitsNinth => {
                self.pointer = (self.pointer + 1) % 4096;
                if bit {
                    Doing::Silent
                } else {
                    self.send(memory)
                }
            }
        };
    }

    /// "If they name it and its busy time is 0 it acknowledges; else it is
    /// silent until the next START."
    fn addressed(&self, byte: u8) -> Doing {
        if byte >> 1 == self.address && self.busy == 0 {
            Doing::AcksAddress { read: byte & 1 == 1 }
        } else {
            Doing::Silent
        }
    }

    /// "Read, it sends the byte at the pointer."
    fn send(&self, memory: &[u8]) -> Doing {
        Doing::Sends { byte: memory[self.pointer as usize], done: 0 }
    }

    /// "A written byte is taken when its eighth bit is delivered." Gives the
    /// part that comes after it.
    fn take(&mut self, part: Part, byte: u8) -> Part {
        match part {
            // "the first two are the pointer, high first, the top four bits
            // ignored (one alone changes nothing)"
            Part::High => Part::Low(byte),
            Part::Low(high) => {
                self.pointer = u16::from_be_bytes([high, byte]) % 4096;
                Part::Data
            }
            // "Later bytes go to a latch at the pointer; its low five bits
            // then step, wrapping inside the page."
            Part::Data => {
                self.latch.put(self.pointer, byte);
                let low = self.pointer % 32;
                self.pointer = self.pointer - low + (low + 1) % 32;
                Part::Data
            }
        }
    }
}

/// One chip alone: a record of samples in, one drive byte a tick out "(the
/// chip's SCL bit is always 1)". It goes through the whole record.
pub fn alone(
    strap: u8,
    memory: &mut [u8],
    state: &mut [u8],
    asked: u16,
    samples: &[u8],
    drives: &mut [u8],
) -> Answer {
    if let Err(number) = refuse::chip(strap, memory, state, asked, samples, drives) {
        return Answer::refused(number);
    }
    let mut chip = Chip::new(strap, state, asked);
    for (sample, drive) in samples.iter().zip(drives.iter_mut()) {
        *drive = chip.drives().byte();
        chip.see(Lines::of(*sample), memory);
    }
    chip.save(state);
    // open: the paper names no tick count for an accepted chip alone. "a byte a
    // tick" and no other end than the record's: it is the record's length.
    Answer::accepted(samples.len() as u64)
}
