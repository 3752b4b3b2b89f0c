//! A second emulator of the CPU12 in its HCS12 edition, written from the papers alone.
//!
//! `cpu` holds the registers, `opcodes` the two pages of the map with their costs,
//! `postbyte` the postbytes, `codes` the Boolean formulas of the condition codes,
//! `glossary` one function for each instruction in the manual's order, `step` what an
//! instruction can see and do, `boundary` what happens between two steps, and `machine`
//! the three operations: reset, step and run.

pub mod bench;
pub mod boundary;
pub mod case;
pub mod cells;
pub mod codes;
pub mod coverage;
pub mod cpu;
pub mod generate;
pub mod glossary;
pub mod machine;
pub mod memory;
pub mod opcodes;
pub mod postbyte;
pub mod random;
pub mod step;
pub mod sums;
pub mod trace;
