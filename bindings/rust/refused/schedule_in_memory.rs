//! Rust has to refuse this file: the schedule would lie within the memory that is lent for writing (E0502).

/// A run over a memory that also holds the schedule.
pub fn overlapping(state: &mut [u8], memory: &mut [u8]) -> u32 {
    cpu12::doors::run(state, &mut memory[..], &memory[..5], 0)
}
