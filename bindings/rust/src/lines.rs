//! The line byte: which requests are up.
//!
//! | bit | request | vector | masked by |
//! |---|---|---|---|
//! | 0 | XIRQ | `$FFF4` | X |
//! | 1 | IRQ | `$FFF2` | I |
//! | 2 | a device | `$FFF0` | I |
//! | 3 | a device | `$FFEE` | I |
//! | 4 | a device | `$FFEC` | I |
//! | 5 | a device | `$FFEA` | I |
//!
//! Bits 6 and 7 are no lines. A byte that sets one is [`Error::WrongLine`](crate::Error::WrongLine), as a step's byte and in any record
//! of a schedule: to leave the bit out of it would be another run than the one that was asked for.
//!
//! The bits are levels. At each boundary between two steps the machine looks at the byte that is in force there; a request counts
//! only while its bit is in that byte, and nothing is remembered of a bit that has gone. Of the requests that are up and not masked,
//! the lowest bit goes first. To enter it the machine reads the word at its vector, pushes a frame of nine bytes, sets I, and for XIRQ
//! also X, and goes on where the word says; a machine that waits has pushed its frame before. So a line that stays up after the
//! handler has cleared its mask is entered again. An RTI that begins while a line is up which the codes in its frame let in takes
//! that request at once, in one step of 10 cycles that leaves the frame as it is; else it comes back, in 8.
//!
//! A single step is handed the byte itself. In a run a schedule says which byte is in force: that of the last record whose cycle is at
//! or before the clock, and 0 before the first. `docs/MACHINE.md` in the repository has the whole of it under "Requests".

/// XIRQ, masked by X. Once X is clear, only the entry of an XIRQ or a reset sets it again.
pub const XIRQ: u8 = 0x01;

/// IRQ, masked by I as the devices are.
pub const IRQ: u8 = 0x02;

/// The four device requests, from bit 2 to bit 5.
pub const DEVICES: [u8; 4] = [0x04, 0x08, 0x10, 0x20];

/// All lines: a byte with a bit beside these is refused.
pub const ALL: u8 = 0x3F;

/// Where the word lies that a request loads into PC, from bit 0 to bit 5.
pub const VECTORS: [u16; 6] = [0xFFF4, 0xFFF2, 0xFFF0, 0xFFEE, 0xFFEC, 0xFFEA];
