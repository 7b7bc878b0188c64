//! The controller: waits, symbols and faults tick by tick, and the entry that
//! runs it alone on a record of samples.

use crate::answer::End;
use crate::form;
use crate::lines::Lines;
use crate::orders::{Next, Orders};
use crate::refuse;
use crate::symbol::{Clocking, Outcome, Symbol};

/// What the controller is at.
#[derive(Clone, Copy, Debug)]
enum State {
    /// Ticks of the asked wait that are left, at least one.
    Waits(u16),
    Clocks(Clocking),
    /// Over: both lines released.
    Over(End),
}

#[derive(Clone, Copy, Debug)]
pub struct Controller<'a> {
    orders: Orders<'a>,
    state: State,
}

impl<'a> Controller<'a> {
    /// In front of the first tick of a right list.
    pub fn new(list: &'a [u8]) -> Controller<'a> {
        let mut controller =
            Controller { orders: Orders::new(list), state: State::Over(End::ListEnd) };
        let next = controller.orders.next_transaction();
        controller.go_to(next, true);
        controller
    }

    /// `p` is the SDA driven in the phase 3 just past.
    fn go_to(&mut self, next: Next, p: bool) {
        self.state = match next {
            Next::Wait(0) => State::Clocks(Clocking::start(Symbol::FirstStart, p)),
            Next::Wait(ticks) => State::Waits(ticks),
            Next::Symbol(symbol) => State::Clocks(Clocking::start(symbol, p)),
            Next::ListEnd => State::Over(End::ListEnd),
        };
    }

    /// How it ended, once it has.
    pub fn end(&self) -> Option<End> {
        match self.state {
            State::Over(end) => Some(end),
            _ => None,
        }
    }

    /// The symbol under way, if there is one (for the case generator).
    pub(crate) fn symbol(&self) -> Option<Symbol> {
        match self.state {
            State::Clocks(clocking) => Some(clocking.symbol()),
            _ => None,
        }
    }

    /// "Before each transaction it drives 1,1 for the asked wait."
    pub fn drives(&self) -> Lines {
        match self.state {
            State::Clocks(clocking) => clocking.drives(),
            State::Waits(_) | State::Over(_) => Lines::FREE,
        }
    }

    /// Sees a tick's lines and moves on.
    pub fn see(&mut self, seen: Lines, results: &mut [u8]) {
        match &mut self.state {
            // "waits excepted": nothing is looked at (reading 10).
            State::Waits(1) => {
                self.state = State::Clocks(Clocking::start(Symbol::FirstStart, true))
            }
            State::Waits(ticks) => *ticks -= 1,
            State::Clocks(clocking) => {
                match clocking.see(seen) {
                    Outcome::Goes => {}
                    Outcome::Ended(sda) => {
                        // It is still in phase 3: what it drove there is p.
                        let p = clocking.drives().sda;
                        let next = self.orders.ended(sda, results);
                        self.go_to(next, p);
                    }
                    // "A fault sets the transaction's outcome ... and the run
                    // ends with both lines released."
                    Outcome::Fault(number) => {
                        self.orders.fault(number, results);
                        self.state = State::Over(End::Fault(number));
                    }
                }
            }
            State::Over(_) => {}
        }
    }
}

/// The controller alone: a record of samples in, one drive byte a tick out.
/// Gives the desk's number, the end and the ticks.
pub fn alone(list: &[u8], samples: &[u8], drives: &mut [u8], results: &mut [u8]) -> (u8, End, u64) {
    if let Err(number) = refuse::controller(list, samples, drives, results) {
        return (number, End::Refused, 0);
    }
    form::start_area(list, results);
    let mut controller = Controller::new(list);
    let mut ticks = 0;
    // "the record's end only if neither other holds by then"
    while controller.end().is_none() && ticks < samples.len() {
        drives[ticks] = controller.drives().byte();
        controller.see(Lines::of(samples[ticks]), results);
        ticks += 1;
    }
    (0, controller.end().unwrap_or(End::RecordEnd), ticks as u64)
}
