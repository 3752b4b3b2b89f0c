//! The machine at work: the registers in a form that is quick to change, and the memory.

use crate::flags::{Flags, I, X};
use crate::Cpu;

/// The only length of a memory that the machine accepts.
pub const SIZE: usize = 65_536;

pub type Memory = [u8; SIZE];

/// Vectors by their addresses; line k of the requests has its own 2k below XIRQ's.
pub const RESET_VECTOR: u16 = 0xFFFE;
pub const TRAP_VECTOR: u16 = 0xFFF8;
pub const SWI_VECTOR: u16 = 0xFFF6;
pub const XIRQ_VECTOR: u16 = 0xFFF4;

/// X, Y and SP, by the numbers that indexed postbytes have for them. They stand outside of
/// `Core`, since what is found by a number has to be in memory, and would keep the rest of
/// `Core` there too.
pub type Index = [u16; 3];

/// Places in `Index`.
pub const IX: usize = 0;
pub const IY: usize = 1;
pub const SP: usize = 2;

pub struct Core<'m> {
    pub memory: &'m mut Memory,
    pub a: u8,
    pub b: u8,
    pub index: &'m mut Index,
    pub pc: u16,
    pub flags: Flags,
    pub waiting: bool,
    pub clock: u32,
    /// The line byte in force up to `look_at`. RTI holds it against the masks that it pulls.
    pub line: u8,
    /// Before this clock value no boundary has anything but an instruction. An instruction
    /// that may change this sets it to 0.
    pub look_at: u32,
}

/// What becomes of a byte that goes into the CCR: X can fall but not rise.
#[inline(always)]
pub fn taken_ccr(value: u8, masks_before: u8) -> u8 {
    value & (masks_before | !X)
}

impl<'m> Core<'m> {
    #[inline(always)]
    pub fn take(cpu: &Cpu, index: &'m mut Index, memory: &'m mut Memory) -> Core<'m> {
        *index = [cpu.x, cpu.y, cpu.sp];
        Core {
            memory,
            a: cpu.a,
            b: cpu.b,
            index,
            pc: cpu.pc,
            flags: Flags::unpack(cpu.ccr),
            waiting: cpu.waiting,
            clock: cpu.clock,
            line: 0,
            look_at: 0,
        }
    }

    #[inline(always)]
    pub fn give(&self) -> Cpu {
        Cpu {
            a: self.a,
            b: self.b,
            x: self.index[IX],
            y: self.index[IY],
            sp: self.index[SP],
            pc: self.pc,
            ccr: self.flags.pack(),
            waiting: self.waiting,
            clock: self.clock,
        }
    }

    #[inline(always)]
    pub fn d(&self) -> u16 {
        u16::from(self.a) << 8 | u16::from(self.b)
    }

    #[inline(always)]
    pub fn set_d(&mut self, value: u16) {
        self.a = (value >> 8) as u8;
        self.b = value as u8;
    }

    #[inline(always)]
    pub fn y_d(&self) -> u32 {
        u32::from(self.index[IY]) << 16 | u32::from(self.d())
    }

    #[inline(always)]
    pub fn set_y_d(&mut self, value: u32) {
        self.index[IY] = (value >> 16) as u16;
        self.set_d(value as u16);
    }

    /// A whole byte goes into the CCR.
    #[inline(always)]
    pub fn set_ccr(&mut self, value: u8) {
        self.flags.set(taken_ccr(value, self.flags.masks));
        self.look_at = 0;
    }

    #[inline(always)]
    pub fn read8(&self, address: u16) -> u8 {
        self.memory[usize::from(address)]
    }

    #[inline(always)]
    pub fn read16(&self, address: u16) -> u16 {
        u16::from(self.read8(address)) << 8 | u16::from(self.read8(address.wrapping_add(1)))
    }

    #[inline(always)]
    pub fn read32(&self, address: u16) -> u32 {
        u32::from(self.read16(address)) << 16 | u32::from(self.read16(address.wrapping_add(2)))
    }

    #[inline(always)]
    pub fn write8(&mut self, address: u16, value: u8) {
        self.memory[usize::from(address)] = value;
    }

    #[inline(always)]
    pub fn write16(&mut self, address: u16, value: u16) {
        self.write8(address, (value >> 8) as u8);
        self.write8(address.wrapping_add(1), value as u8);
    }

    #[inline(always)]
    pub fn write32(&mut self, address: u16, value: u32) {
        self.write16(address, (value >> 16) as u16);
        self.write16(address.wrapping_add(2), value as u16);
    }

    #[inline(always)]
    pub fn push8(&mut self, value: u8) {
        self.index[SP] = self.index[SP].wrapping_sub(1);
        self.write8(self.index[SP], value);
    }

    #[inline(always)]
    pub fn push16(&mut self, value: u16) {
        self.index[SP] = self.index[SP].wrapping_sub(2);
        self.write16(self.index[SP], value);
    }

    #[inline(always)]
    pub fn pull8(&mut self) -> u8 {
        let value = self.read8(self.index[SP]);
        self.index[SP] = self.index[SP].wrapping_add(1);
        value
    }

    #[inline(always)]
    pub fn pull16(&mut self) -> u16 {
        let value = self.read16(self.index[SP]);
        self.index[SP] = self.index[SP].wrapping_add(2);
        value
    }

    /// The nine bytes of an interrupt. B lies below A here, unlike after PSHD.
    #[inline(always)]
    pub fn push_frame(&mut self, return_address: u16) {
        self.push16(return_address);
        self.push16(self.index[IY]);
        self.push16(self.index[IX]);
        self.push8(self.a);
        self.push8(self.b);
        self.push8(self.flags.pack());
    }

    /// Takes a frame back and gives the return address.
    #[inline(always)]
    pub fn pull_frame(&mut self) -> u16 {
        let ccr = self.pull8();
        self.set_ccr(ccr);
        self.b = self.pull8();
        self.a = self.pull8();
        self.index[IX] = self.pull16();
        self.index[IY] = self.pull16();
        self.pull16()
    }

    /// The entry of SWI and of the traps. The vector is read before the frame is pushed, which
    /// may lie over it. Gives the handler's address.
    #[inline(always)]
    pub fn enter(&mut self, vector: u16, return_address: u16) -> u16 {
        let handler = self.read16(vector);
        self.push_frame(return_address);
        self.flags.masks |= I;
        handler
    }
}
