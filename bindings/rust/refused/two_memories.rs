//! Rust has to refuse this file: one slice would be lent for writing twice, as the record and as the memory (E0499).

/// A step over a memory that also holds the state record.
pub fn overlapping(bytes: &mut [u8]) -> u32 {
    cpu12::doors::step(&mut bytes[..48], &mut bytes[..], 0)
}
