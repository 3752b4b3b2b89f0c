//! The programming model (002 section 2), with the waiting flag and the clock.

/// Condition code bits (002 p. 2-3 and 2-4).
pub const S: u8 = 0x80;
pub const X: u8 = 0x40;
pub const H: u8 = 0x20;
pub const I: u8 = 0x10;
pub const N: u8 = 0x08;
pub const Z: u8 = 0x04;
pub const V: u8 = 0x02;
pub const C: u8 = 0x01;

/// Everything that one step hands to the next, memory apart.
#[derive(Clone, Copy, Debug, Default, PartialEq, Eq)]
pub struct Cpu {
    pub a: u8,
    pub b: u8,
    pub x: u16,
    pub y: u16,
    pub sp: u16,
    pub pc: u16,
    pub ccr: u8,
    pub waiting: bool,
    pub clock: u32,
}

impl Cpu {
    /// Reset sets S, X and I and clears the rest.
    pub const RESET_CODES: u8 = S | X | I;
    /// Vector addresses (002 table 7-1, p. 7-1).
    pub const RESET_VECTOR: u16 = 0xFFFE;
    pub const TRAP_VECTOR: u16 = 0xFFF8;
    pub const SWI_VECTOR: u16 = 0xFFF6;
    pub const XIRQ_VECTOR: u16 = 0xFFF4;
    /// The request lines: XIRQ, IRQ and four devices, bits 0 to 5 of a line byte.
    pub const LINES: u8 = 6;
    /// The bytes of an interrupt frame (002 p. 6-196).
    pub const FRAME: u16 = 9;

    /// The state that a reset leaves, with PC given by the caller.
    pub fn after_reset(pc: u16) -> Cpu {
        Cpu { pc, ccr: Cpu::RESET_CODES, ..Cpu::default() }
    }

    /// The vector of request line `line`, 0 being XIRQ.
    pub fn request_vector(line: u8) -> u16 {
        Cpu::XIRQ_VECTOR - 2 * u16::from(line)
    }

    /// A and B side by side, A high.
    pub fn d(&self) -> u16 {
        u16::from_be_bytes([self.a, self.b])
    }

    pub fn set_d(&mut self, value: u16) {
        let [high, low] = value.to_be_bytes();
        self.a = high;
        self.b = low;
    }

    pub fn flag(&self, bit: u8) -> bool {
        self.ccr & bit != 0
    }

    pub fn set_flag(&mut self, bit: u8, on: bool) {
        if on {
            self.ccr |= bit;
        } else {
            self.ccr &= !bit;
        }
    }

    /// A whole write of the CCR by an instruction: X never goes from 0 to 1
    /// (002 p. 2-3 and the pages of ORCC, PULC, RTI and TAP).
    pub fn write_codes(&mut self, value: u8) {
        let x_may_stay = self.ccr & X;
        self.ccr = (value & !X) | (value & x_may_stay);
    }
}
