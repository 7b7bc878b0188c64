//! Records of samples: arbitrary ones, and ones that mostly follow a bus.

use super::Rng;
use crate::controller::Controller;
use crate::form;
use crate::lines::Lines;
use crate::symbol::Symbol;

/// Any samples 0 to 3.
pub fn arbitrary(rng: &mut Rng, ticks: usize) -> Vec<u8> {
    (0..ticks).map(|_| rng.below(4) as u8).collect()
}

/// Lines that stay for a while; then one of them moves, seldom both.
pub fn wandering(rng: &mut Rng, ticks: usize) -> Vec<u8> {
    let mut sample = 3u8;
    (0..ticks)
        .map(|_| {
            sample ^= rng.pick(&[0, 0, 0, 1, 1, 2, 2, 3]);
            sample
        })
        .collect()
}

/// Damages a record here and there: single samples changed, lost or doubled.
pub fn corrupt(rng: &mut Rng, samples: &mut Vec<u8>) {
    for _ in 0..rng.pick(&[0, 1, 1, 1, 2, 5]) {
        if samples.is_empty() {
            return;
        }
        let at = rng.below(samples.len());
        match rng.below(6) {
            0 | 1 => samples[at] ^= 1 << rng.below(2),
            2 => samples[at] = rng.below(4) as u8,
            3 => {
                samples.remove(at);
            }
            4 => samples.insert(at, samples[at]),
            _ => samples.insert(at, rng.below(4) as u8),
        }
    }
}

/// Writes a record as somebody at the two wires would.
struct Pen<'a> {
    rng: &'a mut Rng,
    samples: Vec<u8>,
}

impl Pen<'_> {
    /// Both levels for one tick, often longer.
    fn hold(&mut self, scl: u8, sda: u8) {
        let ticks = self.rng.pick(&[1, 1, 1, 2, 3]);
        self.samples.extend(std::iter::repeat_n(scl | sda << 1, ticks));
    }

    /// Low time with SDA at the bit, then high time. In one of some cases SDA
    /// moves in the very tick in which SCL does.
    fn bit(&mut self, bit: u8) {
        let early = if self.rng.chance(80) { bit } else { 1 - bit };
        let late = if self.rng.chance(85) { bit } else { 1 - bit };
        if self.rng.chance(80) {
            self.hold(0, early);
        }
        self.hold(0, late);
        self.hold(1, bit);
    }

    fn byte(&mut self, byte: u8) {
        for n in 0..8 {
            self.bit(byte >> (7 - n) & 1);
        }
    }

    /// Low, then high, then SDA moves while SCL is high: `first` to the other,
    /// and back as often as `more` says.
    fn edges(&mut self, first: u8, more: usize) {
        if self.rng.chance(85) {
            self.hold(0, first);
        }
        self.hold(1, first);
        for n in 0..=more {
            self.hold(1, if n % 2 == 0 { 1 - first } else { first });
        }
    }

    fn more_edges(&mut self) -> usize {
        if self.rng.chance(85) {
            0
        } else {
            self.rng.range(1, 4)
        }
    }

    fn start(&mut self) {
        let more = self.more_edges();
        self.edges(1, more);
    }

    fn stop(&mut self) {
        let more = self.more_edges();
        self.edges(0, more);
    }

    /// START, an address, some bytes, mostly a STOP, and some waiting; now and
    /// then START or STOP inside a byte.
    fn visit(&mut self, strap: u8) {
        self.start();
        let own = (80 + strap) * 2;
        let address = match self.rng.below(10) {
            0 => self.rng.byte(),
            1 => own ^ (2 << self.rng.below(7)),
            2..=6 => own,
            _ => own + 1,
        };
        self.byte(address);
        let ninth = self.rng.chance(20) as u8;
        self.bit(ninth);
        let bytes = self.rng.pick(&[0, 1, 2, 2, 3, 3, 4, 6, 35]);
        for _ in 0..bytes {
            if self.rng.chance(6) {
                for _ in 0..self.rng.range(0, 8) {
                    let bit = self.rng.below(2) as u8;
                    self.bit(bit);
                }
                return if self.rng.chance(50) { self.stop() } else { self.start() };
            }
            let byte = if self.rng.chance(25) { 0x1F } else { self.rng.byte() };
            self.byte(byte);
            let ninth = self.rng.chance(10) as u8;
            if self.rng.chance(4) {
                return self.stop();
            }
            self.bit(ninth);
        }
        if self.rng.chance(75) {
            self.stop();
            // A second STOP without a START between.
            if self.rng.chance(15) {
                self.hold(0, 1);
                self.stop();
            }
            for _ in 0..self.rng.pick(&[0, 1, 10, 40]) {
                self.hold(1, 1);
            }
        }
    }
}

/// A record of visits to the chip with this strap, written at the wires.
pub fn scripted(rng: &mut Rng, strap: u8) -> Vec<u8> {
    let visits = rng.pick(&[1, 2, 3, 5]);
    let mut pen = Pen { rng, samples: Vec::new() };
    for _ in 0..visits {
        pen.visit(strap);
    }
    pen.samples
}

/// A record made against a controller on this list: the rest of the bus
/// follows it, answers at random, holds the clock near its limit, and breaks
/// the rules in `wrong` of a thousand ticks. A list that is not right gets
/// arbitrary samples.
pub fn reactive(rng: &mut Rng, list: &[u8], wrong: usize, most: usize) -> Vec<u8> {
    let Some(size) = form::result_size(list) else { return arbitrary(rng, 50) };
    let mut results = vec![0; size];
    let mut controller = Controller::new(list);
    let mut samples = Vec::new();
    let (mut bit, mut held, mut scl_before) = (true, 0, true);
    while controller.end().is_none() && samples.len() < most {
        let driven = controller.drives();
        let mut seen = driven;
        if scl_before && !driven.scl {
            // A new clocked symbol: an answer bit, a number of held ticks.
            bit = rng.chance(30);
            held = if rng.chance(3) { rng.pick(&[1, 2, 15, 16, 16, 17]) } else { 0 };
        }
        if driven.scl && held > 0 {
            held -= 1;
            seen.scl = false;
        }
        if controller.symbol() == Some(Symbol::Received) && !bit {
            seen.sda = false;
        }
        if controller.symbol().is_none() && rng.chance(30) {
            seen = Lines::of(rng.below(4) as u8);
        }
        // START and STOP are rare; they get their share of wrong ticks.
        let often = match controller.symbol() {
            Some(Symbol::RepeatedStart | Symbol::Stop) => 60,
            Some(Symbol::FirstStart) => 5,
            _ => 1,
        };
        if rng.below(1000) < often * wrong {
            seen = match rng.below(3) {
                0 => Lines::new(!seen.scl, seen.sda),
                1 => Lines::new(seen.scl, !seen.sda),
                _ => Lines::of(rng.below(4) as u8),
            };
        }
        samples.push(seen.byte());
        controller.see(seen, &mut results);
        scl_before = driven.scl;
    }
    samples
}
