//! The bench sheet's board, for the programs that show a run: chip 0 alone, memory all FF, pointer 0, not busy, asked busy time 8,000, no holds.

use crate::{bus_run, plain_reading};
use std::io::Read;

/// The most results that a list of 4,096 bytes can ask for is far below this.
const AREA: usize = 1 << 20;

/// The lines of every tick of a list's run, one byte a tick, SCL in bit 0 and SDA in bit 1; or the number of its refusal.
///
/// The plain reading says how many ticks there will be, so that the trace has room for each.
pub fn trace(list: &[u8]) -> Result<Vec<u8>, u8> {
    let mut results = vec![0; AREA];
    let counted = plain_reading(list, 1, &mut [255; 4096], &mut [0; 4], &[], 8000, &mut results);
    if counted.number != 0 {
        return Err(counted.number);
    }
    let mut lines = vec![0; counted.ticks as usize];
    let run = bus_run(list, 1, &mut [255; 4096], &mut [0; 4], &[], 8000, &mut results, &mut lines);
    assert_eq!(run, counted, "the run and the plain reading are proved to agree");
    Ok(lines)
}

/// Standard input, run; a refusal goes to standard error and ends the program with its number.
pub fn trace_of_input() -> Vec<u8> {
    let mut list = Vec::new();
    std::io::stdin().lock().read_to_end(&mut list).expect("standard input");
    trace(&list).unwrap_or_else(|number| {
        eprintln!("refused {number}");
        std::process::exit(number.into())
    })
}
