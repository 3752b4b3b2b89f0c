//! The proved CPU12 machine, for Rust.
//!
//! [`Machine`] is the machine's state; the memory is the caller's, 65,536 bytes that are lent to each operation. [`Replay`] is a machine
//! with 64-bit time, a schedule of any length and budgets of any size. [`lines`] says what a line byte means. [`doors`] has the
//! functions of the static library as they are, over slices. All of it is safe: Rust sees to it that lent slices do not overlap and
//! have their lengths, everything else is tested behind the boundary, and no function panics.
//!
//! The crate links the static library `libcpu12.a`, which `tools/prove library cpu12` writes. It is for x86-64, and found where that
//! command writes it, or in the folder that `CPU12_LIBRARY` names. The crate allocates nothing and needs `core` alone; its feature `std`,
//! on by default, makes [`Error`] a `std::error::Error`.
//!
//! What is proved of the machine, and what a state record looks like, is in the repository: `docs/GUIDE-ABI.md` for this boundary,
//! `docs/MACHINE.md` for the machine's rules.
#![cfg_attr(not(feature = "std"), no_std)]
#![deny(missing_docs)]

pub mod doors;
mod error;
pub mod lines;
mod machine;
mod replay;
mod schedule;
mod state;

pub use error::Error;
pub use machine::Machine;
pub use replay::{LongRecord, Replay};
pub use schedule::Record;
pub use state::State;
