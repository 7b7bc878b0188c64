//! The clock holder: it stands for whatever device stretches the clock.

use crate::lines::Lines;

/// It knows the lines alone. SCL falls once in each clocked symbol, in phase
/// 0, so the i-th fall is the i-th clocked symbol of the run (reading 3).
// open: the paper does not say how the holder knows the controller's phases.
// "Ticks and symbols" lets a party drive from what it saw, so it counts falls.
#[derive(Clone, Copy, Debug)]
pub struct Holder<'a> {
    holds: &'a [u8],
    /// Clocked symbols begun.
    symbols: usize,
    /// Ticks for which it still drives SCL low.
    low: u8,
    scl_before: bool,
}

impl<'a> Holder<'a> {
    pub fn new(holds: &'a [u8]) -> Holder<'a> {
        Holder { holds, symbols: 0, low: 0, scl_before: true }
    }

    pub fn drives(&self) -> Lines {
        Lines::new(self.low == 0, true)
    }

    /// "gives the i-th clocked symbol of the run the i-th byte of the hold
    /// list as its number of held ticks; past the list's end, 0. It drives
    /// SCL low in phase 1 and those held ticks."
    pub fn see(&mut self, seen: Lines) {
        if self.scl_before && !seen.scl {
            // open: whether it pulls in phase 1 when the number is 0. Taken
            // literally it does; the controller pulls too, so none can tell.
            let hold = if self.symbols < self.holds.len() { self.holds[self.symbols] } else { 0 };
            self.low = 1 + hold;
            self.symbols += 1;
        } else if self.low > 0 {
            self.low -= 1;
        }
        self.scl_before = seen.scl;
    }
}
