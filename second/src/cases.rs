//! The case generator: seeded random input for every entry, right and wrong.
//!
//! The same seed always gives the same case, so two programs can be held
//! against each other by giving both a case from the same seed.

mod alone;
mod bus;
mod lists;
mod rng;
mod samples;

pub use alone::{chip, chip_damaged, controller, controller_damaged, ChipCase, ControllerCase};
pub use bus::{bus, bus_damaged, bus_of, BusCase};
pub use lists::{damage, list_of_size, right_list};
pub use rng::Rng;
pub use samples::{arbitrary, corrupt, reactive, scripted, wandering};
