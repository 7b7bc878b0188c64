//! The program of the bench sheet, as a function from its input to its output.

use crate::{form, wires};

/// "at most 512 bytes, else it writes `refused 1`: the program's own bound"
pub const LONGEST_INPUT: usize = 512;

/// The bench board: chip 0 only, memory all FF, pointer 0, not busy, asked
/// busy time 8,000, hold list empty.
pub fn answer(input: &[u8]) -> String {
    if input.len() > LONGEST_INPUT {
        return "refused 1\n".to_string();
    }
    let mut memory = vec![0xFF; 4096];
    let mut states = [0; 4];
    let mut results = vec![0; form::result_size(input).unwrap_or(0)];
    let answer = wires::run(input, 1, &mut memory, &mut states, &[], 8000, &mut results, &mut []);
    if answer.number != 0 {
        return format!("refused {}\n", answer.number);
    }
    // The empty list gives `result` with no blank behind it, any other
    // `result`, one blank, the area: "Hex is lower case, no blanks inside."
    let mut text = String::from("result");
    if !results.is_empty() {
        text.push(' ');
    }
    for byte in &results {
        text.push_str(&format!("{byte:02x}"));
    }
    text.push_str(&format!("\nticks {}\n", answer.ticks));
    text
}
