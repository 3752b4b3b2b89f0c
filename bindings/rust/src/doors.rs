//! The functions of the static library as they are, over slices: each gives the number of its reply.
//!
//! `docs/GUIDE-ABI.md` in the repository has the places of a state record and the order of the tests. [`Machine`](crate::Machine) is
//! the same machine with names for both.

/// The version of the boundary that this crate was written for. [`version`] gives that of the library.
pub const VERSION: u32 = 2;

/// The bytes of a state record.
pub const STATE: usize = 48;

/// The bytes of a packed record of a schedule: the cycle number in four, highest byte first, and the line byte.
pub const RECORD: usize = 5;

/// The most records that a schedule may have.
pub const RECORDS: usize = 64;

/// The bytes of the memory that the machine accepts.
pub const MEMORY: usize = 65_536;

mod boundary {
    extern "C" {
        pub fn cpu12_version() -> u32;

        pub fn cpu12_reset(
            state: *mut u8,
            state_length: usize,
            memory: *const u8,
            memory_length: usize,
        ) -> u32;

        pub fn cpu12_step(
            state: *mut u8,
            state_length: usize,
            memory: *mut u8,
            memory_length: usize,
            line: u8,
        ) -> u32;

        pub fn cpu12_run(
            state: *mut u8,
            state_length: usize,
            memory: *mut u8,
            memory_length: usize,
            schedule: *const u8,
            schedule_length: usize,
            budget: u32,
        ) -> u32;
    }
}

/// The version of the boundary that the linked library has. A program that links a library from elsewhere compares it with
/// [`VERSION`] once, at its start.
pub fn version() -> u32 {
    // It takes nothing and touches nothing.
    unsafe { boundary::cpu12_version() }
}

/// Reset: the state after it goes into the record. Gives 100, 1 or 0.
pub fn reset(state: &mut [u8], memory: &[u8]) -> u32 {
    // Each pointer comes with the length of its slice, and a slice lent for writing overlaps no other.
    unsafe { boundary::cpu12_reset(state.as_mut_ptr(), state.len(), memory.as_ptr(), memory.len()) }
}

/// One step under a line byte. Gives 100, 101, 103, 1, 15, 3, 4, 5 or 0, tested in this order.
pub fn step(state: &mut [u8], memory: &mut [u8], line: u8) -> u32 {
    // As in `reset`.
    unsafe {
        boundary::cpu12_step(
            state.as_mut_ptr(),
            state.len(),
            memory.as_mut_ptr(),
            memory.len(),
            line,
        )
    }
}

/// A run with a packed schedule and a budget. Gives 100, 101, 103, 102, 1, 2, 15 or 3, tested in this order, or 4, 5 or 0.
pub fn run(state: &mut [u8], memory: &mut [u8], schedule: &[u8], budget: u32) -> u32 {
    // As in `reset`.
    unsafe {
        boundary::cpu12_run(
            state.as_mut_ptr(),
            state.len(),
            memory.as_mut_ptr(),
            memory.len(),
            schedule.as_ptr(),
            schedule.len(),
            budget,
        )
    }
}
