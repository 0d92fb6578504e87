//! Compares two cores, call by call and byte by byte, on random rooms.

#![forbid(unsafe_code)]

mod campaign;
mod compare;
mod grammar;
mod lent;
mod report;
mod rng;
mod rooms;
mod settings;
mod sweep;
mod tally;

pub use campaign::run;
pub use report::{Found, Report};
pub use settings::{settings, Settings};
pub use sweep::sweep;
