//! The whole-bus run: every party drives and sees the two wires every tick,
//! each with its own state, and the line is the AND of all drives.

use crate::answer::Answer;
use crate::chip::Chip;
use crate::controller::Controller;
use crate::form;
use crate::holder::Holder;
use crate::refuse::{self, CHIP_MEMORY, CHIP_STATE};

/// Runs the list over the wires. Refusals 1 to 7 change nothing.
#[allow(clippy::too_many_arguments)]
pub fn run(
    list: &[u8],
    marks: u8,
    memory: &mut [u8],
    states: &mut [u8],
    holds: &[u8],
    asked: u16,
    results: &mut [u8],
    trace: &mut [u8],
) -> Answer {
    if let Err(number) = refuse::bus(list, marks, memory, states, holds, asked, results) {
        return Answer::refused(number);
    }
    form::start_area(list, results);

    let mut controller = Controller::new(list);
    let mut holder = Holder::new(holds);

    // "What is on the board": bit s set means a chip at address 80 + s; its
    // place is the count of ones below its bit. Going up through the straps
    // gives the chips in place order.
    let mut board = [Chip::new(0, &[0; CHIP_STATE], asked); 8];
    let mut count = 0;
    for strap in 0..8 {
        if marks & 1 << strap != 0 {
            let state = &states[count * CHIP_STATE..][..CHIP_STATE];
            board[count] = Chip::new(strap, state, asked);
            count += 1;
        }
    }
    let chips = &mut board[..count];

    let mut ticks: u64 = 0;
    while controller.end().is_none() {
        // "In each tick every party drives SCL and SDA ... from its state;
        // the line is 0 if any party drives 0."
        let mut lines = controller.drives().and(holder.drives());
        for chip in chips.iter() {
            lines = lines.and(chip.drives());
        }
        // "writes the lines of its first ticks ... into a lent trace of any
        // length"; a short trace does not end the run (reading 5).
        if ticks < trace.len() as u64 {
            trace[ticks as usize] = lines.byte();
        }
        // "Then every party sees the lines and moves on."
        controller.see(lines, results);
        holder.see(lines);
        for (chip, bytes) in chips.iter_mut().zip(memory.chunks_exact_mut(CHIP_MEMORY)) {
            chip.see(lines, bytes);
        }
        ticks += 1;
    }

    for (chip, state) in chips.iter().zip(states.chunks_exact_mut(CHIP_STATE)) {
        chip.save(state);
    }
    Answer::accepted(ticks)
}
