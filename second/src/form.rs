//! The form of an order list: whether a list is right, and the size R of the
//! result area that it fixes.

/// A list may have at most this many bytes ("When the desk says no", 1).
pub const LONGEST_LIST: usize = 4096;

/// A message's head: address, kind, length. A write's data follows it.
#[derive(Clone, Copy, Debug, PartialEq, Eq)]
pub struct Head {
    pub address: u8,
    pub kind: u8,
    pub length: usize,
}

impl Head {
    /// The head at the list's place `at`; `None` if the list is cut short
    /// there or one of its bytes is out of its range.
    pub fn at(list: &[u8], at: usize) -> Option<Head> {
        let address = *list.get(at)?;
        let kind = *list.get(at + 1)?;
        let length = *list.get(at + 2)?;
        // "address 0 to 127; kind 0 write, 1 read, 2 write non-critical,
        // 3 read non-critical; length, 0 to 64 for a write and 1 to 64 for a
        // read"
        if address > 127 || kind > 3 || length > 64 {
            return None;
        }
        let head = Head { address, kind, length: length as usize };
        if head.is_read() && length == 0 {
            return None;
        }
        Some(head)
    }

    pub fn is_read(&self) -> bool {
        self.kind == 1 || self.kind == 3
    }

    pub fn is_critical(&self) -> bool {
        self.kind < 2
    }

    /// How many bytes of the list the message takes: three, "a write's data".
    pub fn list_size(&self) -> usize {
        if self.is_read() {
            3
        } else {
            3 + self.length
        }
    }

    /// How many bytes of the result area are its: "a flag, a count, and a
    /// byte per byte asked of a read".
    pub fn result_size(&self) -> usize {
        if self.is_read() {
            2 + self.length
        } else {
            2
        }
    }

    /// "the address byte (address × 2, plus 1 for a read)"
    pub fn address_byte(&self) -> u8 {
        self.address * 2 + self.is_read() as u8
    }
}

/// A transaction's head: "a message count 1 to 8, a wait of two bytes low
/// first". `None` if cut short or the count is out of range.
pub fn transaction_at(list: &[u8], at: usize) -> Option<(u8, u16)> {
    let count = *list.get(at)?;
    let low = *list.get(at + 1)?;
    let high = *list.get(at + 2)?;
    if !(1..=8).contains(&count) {
        return None;
    }
    Some((count, u16::from_le_bytes([low, high])))
}

/// The result area's size R, or `None` if the list is not of the form of
/// "Order lists and their results". "The empty list is right."
pub fn result_size(list: &[u8]) -> Option<usize> {
    let mut at = 0;
    let mut size = 0;
    while at < list.len() {
        let (count, _wait) = transaction_at(list, at)?;
        at += 3;
        size += 1;
        for _ in 0..count {
            let head = Head::at(list, at)?;
            at += head.list_size();
            // A write whose data runs over the end: "cut short included".
            if at > list.len() {
                return None;
            }
            size += head.result_size();
        }
    }
    Some(size)
}

/// The result area as every accepted call starts it (reading 6): "outcomes
/// 255 and the rest 0". Bytes past R are not touched. The list must be right.
pub fn start_area(list: &[u8], results: &mut [u8]) {
    let mut at = 0;
    let mut place = 0;
    while let Some((count, _wait)) = transaction_at(list, at) {
        at += 3;
        results[place] = 255;
        place += 1;
        for _ in 0..count {
            let Some(head) = Head::at(list, at) else { return };
            at += head.list_size();
            results[place..place + head.result_size()].fill(0);
            place += head.result_size();
        }
    }
}
