//! Order lists: right ones with a bent for the hard places, and damaged ones.

use super::Rng;

/// An address: mostly one of the marked chips, else a neighbour or any.
fn address(rng: &mut Rng, marks: u8) -> u8 {
    let straps: Vec<u8> = (0..8).filter(|strap| marks & 1 << strap != 0).collect();
    if !straps.is_empty() && rng.chance(80) {
        80 + rng.pick(&straps)
    } else if rng.chance(60) {
        rng.range(78, 89) as u8
    } else {
        rng.range(0, 127) as u8
    }
}

/// A written message's data: pointer bytes near a page's end or the memory's,
/// the ignored top bits often set, then few, many or very many bytes.
fn write_data(rng: &mut Rng) -> Vec<u8> {
    let length = match rng.below(12) {
        0 => 0,
        1 => 1,
        2 | 3 => 2,
        4 => 3,
        5..=8 => rng.range(4, 9),
        9 => rng.range(32, 37),
        10 => rng.range(0, 64),
        _ => 64,
    };
    let mut data = rng.bytes(length);
    if length >= 2 {
        if rng.chance(50) {
            data[0] &= 0x0F;
        }
        if rng.chance(15) {
            data[0] |= 0x0F;
        }
        match rng.below(4) {
            0 => data[1] |= 0x1C,
            1 => data[1] |= 0x1F,
            2 => data[1] = 0xFF,
            _ => {}
        }
    }
    data
}

/// A right message to the address.
pub(super) fn message(rng: &mut Rng, address: u8) -> Vec<u8> {
    let kind = rng.pick(&[0, 0, 1, 1, 2, 3]);
    let mut message = vec![address, kind];
    if kind % 2 == 1 {
        let length = match rng.below(6) {
            0..=2 => rng.range(1, 3),
            3 => rng.range(30, 35),
            4 => rng.range(1, 64),
            _ => rng.range(1, 8),
        };
        message.push(length as u8);
    } else {
        let data = write_data(rng);
        message.push(data.len() as u8);
        message.extend(data);
    }
    message
}

/// A transaction's messages, each list bytes for itself.
pub(super) fn messages(rng: &mut Rng, marks: u8) -> Vec<Vec<u8>> {
    let count = rng.pick(&[1, 1, 1, 2, 2, 3, 4, 8]);
    let same = address(rng, marks);
    // Polling a busy chip: the same short non-critical message over and over.
    if rng.chance(12) {
        let poll = rng.pick(&[[same, 2, 0], [same, 3, 1]]);
        return vec![poll.to_vec(); count];
    }
    (0..count)
        .map(|_| {
            let to = if rng.chance(60) { same } else { address(rng, marks) };
            message(rng, to)
        })
        .collect()
}

/// A transaction of these messages.
pub(super) fn transaction(wait: u16, messages: &[Vec<u8>]) -> Vec<u8> {
    let mut bytes = vec![messages.len() as u8];
    bytes.extend(wait.to_le_bytes());
    bytes.extend(messages.iter().flatten());
    bytes
}

/// A right list for a board with these marks, waits short.
pub fn right_list(rng: &mut Rng, marks: u8) -> Vec<u8> {
    let mut list = Vec::new();
    for _ in 0..rng.pick(&[0, 1, 1, 1, 2, 3, 5]) {
        let wait = if rng.chance(50) { 0 } else { rng.below(60) as u16 };
        let messages = messages(rng, marks);
        list.extend(transaction(wait, &messages));
    }
    list
}

/// A right list of exactly this many bytes, at least 12 (or 6 to 70).
pub fn list_of_size(rng: &mut Rng, size: usize) -> Vec<u8> {
    let mut list = Vec::with_capacity(size);
    while list.len() < size {
        let left = size - list.len();
        // A transaction of one write takes 6 to 70 bytes.
        let length = if left <= 70 { left - 6 } else { rng.range(0, 64).min(left - 12) };
        let data = rng.bytes(length);
        list.extend([1, rng.below(4) as u8, 0, rng.range(80, 88) as u8, 0, length as u8]);
        list.extend(data);
    }
    list
}

/// Damages a list in one of the ways a desk meets. It may still be right.
pub fn damage(rng: &mut Rng, list: &mut Vec<u8>) {
    let at = if list.is_empty() { 0 } else { rng.below(list.len()) };
    match rng.below(10) {
        0 if !list.is_empty() => list[at] ^= 1 << rng.below(8),
        1 if !list.is_empty() => list[at] = rng.byte(),
        2 => list.truncate(at),
        3 if !list.is_empty() => {
            list.pop();
        }
        4 => {
            let more = rng.range(1, 7);
            list.extend(rng.bytes(more));
        }
        5 if list.len() >= 6 => list[0] = rng.pick(&[0, 9, 255]),
        6 if list.len() >= 6 => list[3] = rng.pick(&[127, 128, 255]),
        7 if list.len() >= 6 => list[4] = rng.pick(&[3, 4, 5, 255]),
        8 if list.len() >= 6 => {
            list[4] = rng.below(4) as u8;
            list[5] = rng.pick(&[0, 1, 64, 65, 255]);
        }
        9 => {
            // A transaction of seven to ten messages behind or alone.
            let count = rng.range(7, 10) as u8;
            if rng.chance(50) {
                list.clear();
            }
            list.extend([count, 0, 0]);
            for _ in 0..count {
                list.extend([80, 2, 0]);
            }
        }
        _ => list.insert(at, rng.byte()),
    }
}
