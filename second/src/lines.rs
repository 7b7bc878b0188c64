//! The two wires in one tick: as levels and as the byte of a trace or record.

/// The levels of SCL and SDA, seen or driven; `true` is 1.
#[derive(Clone, Copy, Debug, PartialEq, Eq)]
pub struct Lines {
    pub scl: bool,
    pub sda: bool,
}

impl Lines {
    /// Nobody pulls: both lines are 1.
    pub const FREE: Lines = Lines { scl: true, sda: true };

    pub fn new(scl: bool, sda: bool) -> Lines {
        Lines { scl, sda }
    }

    /// "a byte a tick, SCL in bit 0, SDA in bit 1"
    pub fn byte(self) -> u8 {
        self.scl as u8 | (self.sda as u8) << 1
    }

    /// The levels of a sample byte 0 to 3.
    pub fn of(sample: u8) -> Lines {
        Lines { scl: sample & 1 != 0, sda: sample & 2 != 0 }
    }

    /// "Ticks and symbols": the line is 0 if any party drives 0.
    pub fn and(self, other: Lines) -> Lines {
        Lines { scl: self.scl && other.scl, sda: self.sda && other.sda }
    }
}
