//! Safe Rust over the proved static library: the entries on slices. Nothing here decides anything; the promises are those of `include/bilvakront.h`.

pub mod bench;

mod raw {
    extern "C" {
        pub fn bilvakront_bus_run(
            list: *const u8, list_len: usize, marks: u8,
            memory: *mut u8, memory_len: usize, states: *mut u8, states_len: usize,
            holds: *const u8, holds_len: usize, asked: u16,
            results: *mut u8, results_len: usize, trace: *mut u8, trace_len: usize,
            ticks: *mut u64,
        ) -> u8;
        pub fn bilvakront_plain_reading(
            list: *const u8, list_len: usize, marks: u8,
            memory: *mut u8, memory_len: usize, states: *mut u8, states_len: usize,
            holds: *const u8, holds_len: usize, asked: u16,
            results: *mut u8, results_len: usize, ticks: *mut u64,
        ) -> u8;
        pub fn bilvakront_controller_alone(
            list: *const u8, list_len: usize, samples: *const u8, samples_len: usize,
            drives: *mut u8, drives_len: usize, results: *mut u8, results_len: usize,
            end: *mut u8, ticks: *mut u64,
        ) -> u8;
        pub fn bilvakront_chip_alone(
            strap: u8, memory: *mut u8, memory_len: usize, state: *mut u8, state_len: usize, asked: u16,
            samples: *const u8, samples_len: usize, drives: *mut u8, drives_len: usize, ticks: *mut u64,
        ) -> u8;
    }
}

/// The number of the refusal, or 0, and the ticks.
#[derive(Clone, Copy, Debug, PartialEq, Eq)]
pub struct Answer {
    pub number: u8,
    pub ticks: u64,
}

/// How a run on a record ended.
#[derive(Clone, Copy, Debug, PartialEq, Eq)]
pub enum End {
    ListEnd,
    /// 1 data lost, 2 clock stuck, 3 undefined, 4 bus not free, 5 line broken
    Fault(u8),
    RecordEnd,
    Refused,
}

/// The whole-bus run.
#[allow(clippy::too_many_arguments)]
pub fn bus_run(
    list: &[u8], marks: u8, memory: &mut [u8], states: &mut [u8], holds: &[u8], asked: u16, results: &mut [u8], trace: &mut [u8],
) -> Answer {
    let mut ticks = 0;
    // Each pointer and length is one slice's own, and the borrows keep them apart.
    let number = unsafe {
        raw::bilvakront_bus_run(
            list.as_ptr(), list.len(), marks, memory.as_mut_ptr(), memory.len(), states.as_mut_ptr(), states.len(),
            holds.as_ptr(), holds.len(), asked, results.as_mut_ptr(), results.len(), trace.as_mut_ptr(), trace.len(), &mut ticks,
        )
    };
    Answer { number, ticks }
}

/// The plain reading of the same list: the same answers without wires.
pub fn plain_reading(
    list: &[u8], marks: u8, memory: &mut [u8], states: &mut [u8], holds: &[u8], asked: u16, results: &mut [u8],
) -> Answer {
    let mut ticks = 0;
    let number = unsafe {
        raw::bilvakront_plain_reading(
            list.as_ptr(), list.len(), marks, memory.as_mut_ptr(), memory.len(), states.as_mut_ptr(), states.len(),
            holds.as_ptr(), holds.len(), asked, results.as_mut_ptr(), results.len(), &mut ticks,
        )
    };
    Answer { number, ticks }
}

/// The controller alone on a record of samples.
pub fn controller_alone(list: &[u8], samples: &[u8], drives: &mut [u8], results: &mut [u8]) -> (u8, End, u64) {
    let (mut end, mut ticks) = (0, 0);
    let number = unsafe {
        raw::bilvakront_controller_alone(
            list.as_ptr(), list.len(), samples.as_ptr(), samples.len(), drives.as_mut_ptr(), drives.len(),
            results.as_mut_ptr(), results.len(), &mut end, &mut ticks,
        )
    };
    let end = match end {
        0 => End::ListEnd,
        6 => End::RecordEnd,
        7 => End::Refused,
        fault => End::Fault(fault),
    };
    (number, end, ticks)
}

/// One chip alone on a record of samples.
pub fn chip_alone(strap: u8, memory: &mut [u8], state: &mut [u8], asked: u16, samples: &[u8], drives: &mut [u8]) -> Answer {
    let mut ticks = 0;
    let number = unsafe {
        raw::bilvakront_chip_alone(
            strap, memory.as_mut_ptr(), memory.len(), state.as_mut_ptr(), state.len(), asked,
            samples.as_ptr(), samples.len(), drives.as_mut_ptr(), drives.len(), &mut ticks,
        )
    };
    Answer { number, ticks }
}
