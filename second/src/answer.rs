//! What the entries hand back: the desk's number with the ticks, and how a
//! controller that runs alone came to its end.

/// The answer of the whole-bus run, the plain reading and one chip alone.
#[derive(Clone, Copy, Debug, PartialEq, Eq)]
pub struct Answer {
    /// 0 for an accepted call, else the refusal's number.
    pub number: u8,
    pub ticks: u64,
}

impl Answer {
    /// "When the desk says no": each refusal returns the number and 0 ticks.
    pub fn refused(number: u8) -> Answer {
        Answer { number, ticks: 0 }
    }

    /// "An accepted call returns number 0."
    pub fn accepted(ticks: u64) -> Answer {
        Answer { number: 0, ticks }
    }
}

/// How the controller alone ended.
// open: the paper numbers the refusals and the faults, but gives no number for
// "the list's end" and "the record's end"; so these are names only here.
#[derive(Clone, Copy, Debug, PartialEq, Eq)]
pub enum End {
    /// The call was refused; nothing ran.
    Refused,
    ListEnd,
    /// A line fault, 1 to 5 as in "Line faults".
    Fault(u8),
    RecordEnd,
}
