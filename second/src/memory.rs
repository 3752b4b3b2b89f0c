//! The 65,536 bytes: reads that wrap, and writes that wait for the end of a step.

/// The only length that the machine accepts.
pub const SIZE: usize = 65_536;

pub fn read8(memory: &[u8], address: u16) -> u8 {
    memory[usize::from(address)]
}

/// High byte at the lower address; a word at $FFFF ends at $0000.
pub fn read16(memory: &[u8], address: u16) -> u16 {
    let high = read8(memory, address);
    let low = read8(memory, address.wrapping_add(1));
    u16::from_be_bytes([high, low])
}

/// No step writes more than the nine bytes of an interrupt frame.
const MOST_WRITES: usize = 9;

/// The bytes that a step will write. They are kept apart until the step is done,
/// so that all its reads see memory as it was when the step began.
#[derive(Clone, Copy, Debug, Default, PartialEq, Eq)]
pub struct Writes {
    bytes: [(u16, u8); MOST_WRITES],
    count: usize,
}

impl Writes {
    pub fn push(&mut self, address: u16, value: u8) {
        self.bytes[self.count] = (address, value);
        self.count += 1;
    }

    pub fn list(&self) -> &[(u16, u8)] {
        &self.bytes[..self.count]
    }

    pub fn apply(&self, memory: &mut [u8]) {
        for &(address, value) in self.list() {
            memory[usize::from(address)] = value;
        }
    }
}
