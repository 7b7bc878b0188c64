//! When the desk says no: the ten refusals, and each entry's own order of
//! looking at them. Nothing here changes a lent byte.

use crate::form;

/// Bytes of memory a chip has.
pub const CHIP_MEMORY: usize = 4096;
/// Bytes of state a chip has: pointer, then busy ticks left, low byte first.
pub const CHIP_STATE: usize = 4;
/// The longest busy time, asked or left.
pub const LONGEST_BUSY: u16 = 20_000;
/// The most ticks a hold byte may ask.
pub const LONGEST_HOLD: u8 = 16;

type Check = Result<(), u8>;

fn refuse_if(bad: bool, number: u8) -> Check {
    if bad {
        Err(number)
    } else {
        Ok(())
    }
}

/// 1: list over 4,096 bytes.
fn list_length(list: &[u8]) -> Check {
    refuse_if(list.len() > form::LONGEST_LIST, 1)
}

/// 2: list not of the form, cut short included. Gives R.
fn list_form(list: &[u8]) -> Result<usize, u8> {
    form::result_size(list).ok_or(2)
}

/// 3: memory or state length not 4,096 or 4 per chip.
fn chip_lengths(chips: usize, memory: &[u8], states: &[u8]) -> Check {
    refuse_if(memory.len() != chips * CHIP_MEMORY || states.len() != chips * CHIP_STATE, 3)
}

/// 4: a pointer over 4,095 or busy over 20,000 in a state.
fn state_values(states: &[u8]) -> Check {
    for state in states.chunks_exact(CHIP_STATE) {
        let pointer = u16::from_le_bytes([state[0], state[1]]);
        let busy = u16::from_le_bytes([state[2], state[3]]);
        refuse_if(pointer > 4095 || busy > LONGEST_BUSY, 4)?;
    }
    Ok(())
}

/// 5: a hold byte over 16, used or not.
fn hold_values(holds: &[u8]) -> Check {
    refuse_if(holds.iter().any(|&hold| hold > LONGEST_HOLD), 5)
}

/// 6: asked busy time over 20,000.
fn asked_value(asked: u16) -> Check {
    refuse_if(asked > LONGEST_BUSY, 6)
}

/// 7: result area under R.
fn area_length(results: &[u8], size: usize) -> Check {
    refuse_if(results.len() < size, 7)
}

/// 8: a sample byte over 3, wherever it stands (reading 27).
fn sample_values(samples: &[u8]) -> Check {
    refuse_if(samples.iter().any(|&sample| sample > 3), 8)
}

/// 9: drive buffer shorter than the samples, also if the run would have
/// stopped earlier (reading 27).
fn drive_length(samples: &[u8], drives: &[u8]) -> Check {
    refuse_if(drives.len() < samples.len(), 9)
}

/// "The whole-bus run and the plain reading look at 1 to 7 in that order."
pub fn bus(
    list: &[u8],
    marks: u8,
    memory: &[u8],
    states: &[u8],
    holds: &[u8],
    asked: u16,
    results: &[u8],
) -> Check {
    list_length(list)?;
    let size = list_form(list)?;
    // "The number of chips is the count of ones in that byte."
    chip_lengths(marks.count_ones() as usize, memory, states)?;
    state_values(states)?;
    hold_values(holds)?;
    asked_value(asked)?;
    area_length(results, size)
}

/// "the controller alone at 1, 2, 8, 9, 7"
pub fn controller(list: &[u8], samples: &[u8], drives: &[u8], results: &[u8]) -> Check {
    list_length(list)?;
    let size = list_form(list)?;
    sample_values(samples)?;
    drive_length(samples, drives)?;
    area_length(results, size)
}

/// "one chip alone at 10, 3, 4, 6, 8, 9"
pub fn chip(
    strap: u8,
    memory: &[u8],
    state: &[u8],
    asked: u16,
    samples: &[u8],
    drives: &[u8],
) -> Check {
    // 10: a strap over 7.
    refuse_if(strap > 7, 10)?;
    chip_lengths(1, memory, state)?;
    state_values(state)?;
    asked_value(asked)?;
    sample_values(samples)?;
    drive_length(samples, drives)
}
