//! The controller's symbols: what it drives in each of a symbol's four
//! phases, and which line fault it finds in a tick.

use crate::lines::Lines;

/// The rows of the table in "Ticks and symbols".
#[derive(Clone, Copy, Debug, PartialEq, Eq)]
pub enum Symbol {
    FirstStart,
    RepeatedStart,
    Sent(bool),
    Received,
    Stop,
}

impl Symbol {
    /// "All symbols but the first START are clocked."
    pub fn is_clocked(self) -> bool {
        self != Symbol::FirstStart
    }

    /// A bit in the sense of fault 3 (reading 13): not START, not STOP.
    fn is_bit(self) -> bool {
        matches!(self, Symbol::Sent(_) | Symbol::Received)
    }
}

/// What a tick made of the symbol.
#[derive(Clone, Copy, Debug, PartialEq, Eq)]
pub enum Outcome {
    Goes,
    /// Phase 3 is past without a fault; the SDA seen in it.
    Ended(bool),
    Fault(u8),
}

/// "phase 2, SCL 0 and 16 ticks already held" is the clock stuck.
const MOST_HELD: u8 = 16;

/// One symbol under way.
#[derive(Clone, Copy, Debug)]
pub struct Clocking {
    symbol: Symbol,
    phase: u8,
    /// p: "the SDA that it drove in phase 3 before" (driven, reading 2). In
    /// front of a repeated START or STOP it is always 1: a received ninth, or
    /// the answer 1 to the last byte read.
    p: bool,
    /// Held ticks of this symbol so far.
    held: u8,
    /// SDA seen in phase 2's last tick.
    sda_in_2: bool,
}

impl Clocking {
    pub fn start(symbol: Symbol, p: bool) -> Clocking {
        Clocking { symbol, phase: 0, p, held: 0, sda_in_2: true }
    }

    pub fn symbol(&self) -> Symbol {
        self.symbol
    }

    /// The table of "Ticks and symbols", row by row.
    pub fn drives(&self) -> Lines {
        let p = self.p as u8;
        let (scl, sda) = match self.symbol {
            Symbol::FirstStart => [(1, 1), (1, 1), (1, 1), (1, 0)],
            Symbol::RepeatedStart => [(0, p), (0, 1), (1, 1), (1, 0)],
            Symbol::Sent(bit) => {
                let b = bit as u8;
                [(0, p), (0, b), (1, b), (1, b)]
            }
            Symbol::Received => [(0, p), (0, 1), (1, 1), (1, 1)],
            Symbol::Stop => [(0, p), (0, 0), (1, 0), (1, 1)],
        }[self.phase as usize];
        Lines::new(scl == 1, sda == 1)
    }

    /// The faults of "Line faults", looked at in the table's order.
    fn fault(&self, seen: Lines) -> Option<u8> {
        let driven = self.drives();
        // 5 line broken: a line driven 0 is seen 1. Any phase, held or not.
        if (!driven.scl && seen.scl) || (!driven.sda && seen.sda) {
            return Some(5);
        }
        // 4 bus not free: phases 0 to 2 of the first START, not 1,1. So SCL 0
        // in its phase 2 is 4 and never a held tick (reading 11).
        if self.symbol == Symbol::FirstStart && self.phase <= 2 && seen != Lines::FREE {
            return Some(4);
        }
        // 2 clock stuck: the 17th low tick (reading 4).
        if self.phase == 2 && !seen.scl && self.held >= MOST_HELD {
            return Some(2);
        }
        // 3 undefined: phase 3, SCL 0 (of every symbol); or a bit whose SDA
        // differs between phase 2's last tick and phase 3.
        if self.phase == 3 && !seen.scl {
            return Some(3);
        }
        if self.phase == 3 && self.symbol.is_bit() && seen.sda != self.sda_in_2 {
            return Some(3);
        }
        // 1 data lost: phase 2 with SCL 1 of a sent 1 or repeated START, or
        // phase 3 of STOP, SDA 0.
        let looks_in_2 = matches!(self.symbol, Symbol::Sent(true) | Symbol::RepeatedStart);
        if self.phase == 2 && seen.scl && looks_in_2 && !seen.sda {
            return Some(1);
        }
        if self.phase == 3 && self.symbol == Symbol::Stop && !seen.sda {
            return Some(1);
        }
        None
    }

    /// Sees a tick's lines and moves on.
    pub fn see(&mut self, seen: Lines) -> Outcome {
        if let Some(number) = self.fault(seen) {
            return Outcome::Fault(number);
        }
        if self.phase == 2 {
            // "If SCL is seen 0 in a clocked symbol's phase 2, phase 2 is
            // repeated: a held tick."
            if !seen.scl {
                self.held += 1;
                return Outcome::Goes;
            }
            self.sda_in_2 = seen.sda;
        }
        if self.phase == 3 {
            return Outcome::Ended(seen.sda);
        }
        self.phase += 1;
        Outcome::Goes
    }
}
