//! The images of the speed figures, and a run of one of them on the proved machine, on the yardstick or on the second emulator.
#![deny(unsafe_code)]

pub mod images;
#[path = "../../bindings/rust/tests/common/of_the_second.rs"]
mod of_the_second;
mod program;
pub mod start;
mod thread_time;
pub mod trial;

/// The cycles of each timed run.
pub const CYCLES: u32 = 50_000_000;
