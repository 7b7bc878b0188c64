//! The plain Rust counterpart for benchmarks: it is `wires::run` itself,
//! which is written that way, and a small clock around it.

use std::time::{Duration, Instant};

/// Plain structs, `&mut self`, every party stepped every tick, no allocation
/// in the run, list check and area start included.
pub use crate::wires::run;

/// A benchmark's input: the bench board with `chips` marks, and a list of
/// `transactions` that each write a page's worth of bytes and read them back.
pub struct Load {
    pub list: Vec<u8>,
    pub marks: u8,
    pub memory: Vec<u8>,
    pub states: Vec<u8>,
    pub results: Vec<u8>,
    pub trace: Vec<u8>,
}

impl Load {
    pub fn new(marks: u8, transactions: usize) -> Load {
        let mut list = Vec::new();
        for i in 0..transactions {
            let address = 80 + (i % 8) as u8;
            let page = (i * 32 % 4096) as u16;
            list.extend([1, 16, 0, address, 0, 34]);
            list.extend(page.to_be_bytes());
            list.extend((0..32).map(|byte| byte as u8 ^ i as u8));
            list.extend([2, 0, 4, address, 2, 2]);
            list.extend(page.to_be_bytes());
            list.extend([address, 3, 32]);
        }
        let chips = marks.count_ones() as usize;
        let size = crate::form::result_size(&list).unwrap_or(0);
        Load {
            list,
            marks,
            memory: vec![0xFF; chips * 4096],
            states: vec![0; chips * 4],
            results: vec![0; size],
            trace: vec![0; 1 << 16],
        }
    }

    /// One run: its answer and the time it took.
    pub fn time(&mut self) -> (crate::Answer, Duration) {
        let begun = Instant::now();
        let answer = run(
            &self.list,
            self.marks,
            &mut self.memory,
            &mut self.states,
            &[],
            500,
            &mut self.results,
            &mut self.trace,
        );
        (answer, begun.elapsed())
    }
}
