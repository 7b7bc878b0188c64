//! The independent second program: the bus stack of `01-scope.md`, written
//! from the papers alone, to be compared with the verified one.
//!
//! Comments name the section of `01-scope.md` whose sentence they follow, or
//! "reading n" for item n of `03-readings.md`. `// open:` marks a place where
//! neither paper settles a question and the most literal answer was taken.

pub mod answer;
pub mod cases;
pub mod chip;
pub mod controller;
pub mod counterpart;
pub mod form;
pub mod holder;
pub mod lines;
pub mod orders;
pub mod plain;
pub mod program;
pub mod refuse;
pub mod symbol;
pub mod wires;

pub use answer::{Answer, End};
