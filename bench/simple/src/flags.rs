//! The condition codes, and the byte and word operations that set them.
//!
//! A code is not worked out before something asks for it: most results set codes that the
//! next result sets again. So the codes are kept as the numbers that they follow from.

/// The bits of the condition code register.
pub const S: u8 = 0x80;
pub const X: u8 = 0x40;
pub const H: u8 = 0x20;
pub const I: u8 = 0x10;
pub const N: u8 = 0x08;
pub const Z: u8 = 0x04;
pub const V: u8 = 0x02;
pub const C: u8 = 0x01;

pub struct Flags {
    /// S, X and I in their places; the other bits are 0.
    pub masks: u8,
    /// The last result with its sign extended: N is the sign, and Z is set if the low 16 bits
    /// are 0. (A program can set both, so the sign alone does not say that Z is clear.)
    result: i32,
    /// V is bit 7.
    overflow: u8,
    /// C, 0 or 1.
    carry: u8,
    /// H is bit 4.
    half: u8,
}

/// The sign of `result` without its low bits.
const SIGN: i32 = i32::MIN;

impl Flags {
    #[inline(always)]
    pub fn unpack(ccr: u8) -> Flags {
        let mut flags = Flags { masks: 0, result: 0, overflow: 0, carry: 0, half: 0 };
        flags.set(ccr);
        flags
    }

    /// Sets each code by itself. To put a whole `Flags` in place would keep the five from being
    /// registers of their own.
    #[inline(always)]
    pub fn set(&mut self, ccr: u8) {
        let sign = if ccr & N != 0 { SIGN } else { 0 };
        self.masks = ccr & (S | X | I);
        self.result = sign | i32::from(ccr & Z == 0);
        self.overflow = ccr << 6;
        self.carry = ccr & C;
        self.half = ccr >> 1;
    }

    #[inline(always)]
    pub fn pack(&self) -> u8 {
        let n = (self.result >> 28) as u8 & N;
        let z = if self.z() { Z } else { 0 };
        let v = self.overflow >> 6 & V;
        let h = self.half << 1 & H;
        self.masks | h | n | z | v | self.carry
    }

    #[inline(always)]
    pub fn n(&self) -> bool {
        self.result < 0
    }

    #[inline(always)]
    pub fn z(&self) -> bool {
        self.result as u16 == 0
    }

    #[inline(always)]
    pub fn v(&self) -> bool {
        self.overflow & 0x80 != 0
    }

    #[inline(always)]
    pub fn c(&self) -> bool {
        self.carry != 0
    }

    #[inline(always)]
    pub fn h(&self) -> bool {
        self.half & 0x10 != 0
    }

    #[inline(always)]
    pub fn set_v(&mut self, on: bool) {
        self.overflow = if on { 0x80 } else { 0 };
    }

    #[inline(always)]
    pub fn set_c(&mut self, on: bool) {
        self.carry = u8::from(on);
    }

    #[inline(always)]
    pub fn carry(&self) -> u8 {
        self.carry
    }

    /// The sixteen conditions of the branches, in the order of the opcodes 20 to 2F.
    #[inline(always)]
    pub fn condition(&self, number: u8) -> bool {
        match number {
            0x0 => true,
            0x1 => false,
            0x2 => !(self.c() || self.z()),
            0x3 => self.c() || self.z(),
            0x4 => !self.c(),
            0x5 => self.c(),
            0x6 => !self.z(),
            0x7 => self.z(),
            0x8 => !self.v(),
            0x9 => self.v(),
            0xA => !self.n(),
            0xB => self.n(),
            0xC => self.n() == self.v(),
            0xD => self.n() != self.v(),
            0xE => !self.z() && self.n() == self.v(),
            _ => self.z() || self.n() != self.v(),
        }
    }

    /// N and Z of a byte.
    #[inline(always)]
    pub fn nz8(&mut self, result: u8) -> u8 {
        self.result = i32::from(result as i8);
        result
    }

    /// N and Z of a word.
    #[inline(always)]
    pub fn nz16(&mut self, result: u16) -> u16 {
        self.result = i32::from(result as i16);
        result
    }

    /// N and Z of 32 bits.
    #[inline(always)]
    pub fn nz32(&mut self, result: u32) -> u32 {
        self.result = result as i32 & SIGN | i32::from(result != 0);
        result
    }

    /// Z alone, of a word.
    #[inline(always)]
    pub fn z16(&mut self, result: u16) -> u16 {
        self.result = self.result & SIGN | i32::from(result);
        result
    }

    /// Loads, stores and logic of a byte: V is cleared and C stays.
    #[inline(always)]
    pub fn logic8(&mut self, result: u8) -> u8 {
        self.overflow = 0;
        self.nz8(result)
    }

    /// The same of a word.
    #[inline(always)]
    pub fn logic16(&mut self, result: u16) -> u16 {
        self.overflow = 0;
        self.nz16(result)
    }

    #[inline(always)]
    pub fn add8(&mut self, x: u8, m: u8, carry: u8) -> u8 {
        let sum = u16::from(x) + u16::from(m) + u16::from(carry);
        let result = sum as u8;
        self.carry = (sum >> 8) as u8;
        self.overflow = (x ^ result) & (m ^ result);
        self.half = x ^ m ^ result;
        self.nz8(result)
    }

    #[inline(always)]
    pub fn sub8(&mut self, x: u8, m: u8, borrow: u8) -> u8 {
        let difference = u16::from(x).wrapping_sub(u16::from(m)).wrapping_sub(u16::from(borrow));
        let result = difference as u8;
        self.carry = (difference >> 15) as u8;
        self.overflow = (x ^ m) & (x ^ result);
        self.nz8(result)
    }

    #[inline(always)]
    pub fn add16(&mut self, x: u16, m: u16) -> u16 {
        let sum = u32::from(x) + u32::from(m);
        let result = sum as u16;
        self.carry = (sum >> 16) as u8;
        self.overflow = (((x ^ result) & (m ^ result)) >> 8) as u8;
        self.nz16(result)
    }

    #[inline(always)]
    pub fn sub16(&mut self, x: u16, m: u16) -> u16 {
        let result = x.wrapping_sub(m);
        self.carry = u8::from(x < m);
        self.overflow = (((x ^ m) & (x ^ result)) >> 8) as u8;
        self.nz16(result)
    }

    #[inline(always)]
    pub fn neg8(&mut self, before: u8) -> u8 {
        self.sub8(0, before, 0)
    }

    #[inline(always)]
    pub fn com8(&mut self, before: u8) -> u8 {
        self.carry = 1;
        self.logic8(!before)
    }

    /// Overflow is the step from a clear bit 7 to a set one; C stays.
    #[inline(always)]
    pub fn inc8(&mut self, before: u8) -> u8 {
        let result = before.wrapping_add(1);
        self.overflow = result & !before;
        self.nz8(result)
    }

    /// Overflow is the step from a set bit 7 to a clear one; C stays.
    #[inline(always)]
    pub fn dec8(&mut self, before: u8) -> u8 {
        let result = before.wrapping_sub(1);
        self.overflow = before & !result;
        self.nz8(result)
    }

    /// After every shift and rotation V is N exclusive or C.
    #[inline(always)]
    fn shifted8(&mut self, result: u8, out: u8) -> u8 {
        self.carry = out;
        self.overflow = result ^ out << 7;
        self.nz8(result)
    }

    /// The same for D.
    #[inline(always)]
    fn shifted16(&mut self, result: u16, out: u8) -> u16 {
        self.carry = out;
        self.overflow = (result >> 8) as u8 ^ out << 7;
        self.nz16(result)
    }

    #[inline(always)]
    pub fn lsr8(&mut self, before: u8) -> u8 {
        self.shifted8(before >> 1, before & 1)
    }

    #[inline(always)]
    pub fn rol8(&mut self, before: u8) -> u8 {
        self.shifted8(before << 1 | self.carry, before >> 7)
    }

    #[inline(always)]
    pub fn ror8(&mut self, before: u8) -> u8 {
        self.shifted8(before >> 1 | self.carry << 7, before & 1)
    }

    #[inline(always)]
    pub fn asr8(&mut self, before: u8) -> u8 {
        self.shifted8((before as i8 >> 1) as u8, before & 1)
    }

    #[inline(always)]
    pub fn asl8(&mut self, before: u8) -> u8 {
        self.shifted8(before << 1, before >> 7)
    }

    #[inline(always)]
    pub fn lsr16(&mut self, before: u16) -> u16 {
        self.shifted16(before >> 1, (before & 1) as u8)
    }

    #[inline(always)]
    pub fn asl16(&mut self, before: u16) -> u16 {
        self.shifted16(before << 1, (before >> 15) as u8)
    }

    #[inline(always)]
    pub fn clr8(&mut self, _before: u8) -> u8 {
        self.tst8(0)
    }

    #[inline(always)]
    pub fn tst8(&mut self, value: u8) -> u8 {
        self.carry = 0;
        self.logic8(value)
    }
}
