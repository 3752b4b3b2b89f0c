//! One instruction at work: the registers as they will be, memory as it was, the bytes
//! to be written, and the operands that its object code names.

use crate::cpu::Cpu;
use crate::memory::{read16, read8, Writes};
use crate::opcodes::Form;
use crate::postbyte::{Accumulator, Base, Index};

/// Where an operand comes from.
#[derive(Clone, Copy, Debug, PartialEq, Eq)]
pub enum Operand {
    None,
    /// Immediate data.
    Value(u16),
    /// A place in memory.
    At(u16),
}

pub struct Step<'a> {
    pub cpu: Cpu,
    memory: &'a [u8],
    pub writes: Writes,
    /// The operand of an ordinary instruction, the source of a move.
    pub operand: Operand,
    /// The destination of a move.
    pub destination: u16,
    /// The mask of BSET, BCLR, BRSET and BRCLR.
    pub mask: u8,
    /// The postbyte of a transfer, an exchange or a loop.
    pub postbyte: u8,
    /// A branch offset, sign-extended to 16 bits.
    pub offset: u16,
    /// Whether a conditional branch was taken.
    pub taken: bool,
    /// The next byte of object code to be read.
    cursor: u16,
}

impl<'a> Step<'a> {
    pub fn new(cpu: Cpu, memory: &'a [u8], operands: u16) -> Step<'a> {
        Step {
            cpu,
            memory,
            writes: Writes::default(),
            operand: Operand::None,
            destination: 0,
            mask: 0,
            postbyte: 0,
            offset: 0,
            taken: false,
            cursor: operands,
        }
    }

    pub fn read8(&self, address: u16) -> u8 {
        read8(self.memory, address)
    }

    pub fn read16(&self, address: u16) -> u16 {
        read16(self.memory, address)
    }

    /// Four bytes, highest first.
    pub fn read32(&self, address: u16) -> u32 {
        let high = self.read16(address);
        let low = self.read16(address.wrapping_add(2));
        u32::from(high) << 16 | u32::from(low)
    }

    pub fn write8(&mut self, address: u16, value: u8) {
        self.writes.push(address, value);
    }

    pub fn write16(&mut self, address: u16, value: u16) {
        let [high, low] = value.to_be_bytes();
        self.write8(address, high);
        self.write8(address.wrapping_add(1), low);
    }

    pub fn write32(&mut self, address: u16, value: u32) {
        self.write16(address, (value >> 16) as u16);
        self.write16(address.wrapping_add(2), value as u16);
    }

    /// SP holds the address of the last byte used (002 p. 2-2), so a push steps first.
    pub fn push8(&mut self, value: u8) {
        self.cpu.sp = self.cpu.sp.wrapping_sub(1);
        self.write8(self.cpu.sp, value);
    }

    pub fn push16(&mut self, value: u16) {
        self.cpu.sp = self.cpu.sp.wrapping_sub(2);
        self.write16(self.cpu.sp, value);
    }

    pub fn pull8(&mut self) -> u8 {
        let value = self.read8(self.cpu.sp);
        self.cpu.sp = self.cpu.sp.wrapping_add(1);
        value
    }

    pub fn pull16(&mut self) -> u16 {
        let value = self.read16(self.cpu.sp);
        self.cpu.sp = self.cpu.sp.wrapping_add(2);
        value
    }

    /// The nine bytes of an interrupt frame, return address first and CCR last
    /// (SWI, 002 p. 6-196). A goes before B, so B ends up below A, unlike PSHD.
    pub fn push_frame(&mut self) {
        self.push16(self.cpu.pc);
        self.push16(self.cpu.y);
        self.push16(self.cpu.x);
        self.push8(self.cpu.a);
        self.push8(self.cpu.b);
        self.push8(self.cpu.ccr);
    }

    /// The operand as a byte.
    pub fn operand8(&self) -> u8 {
        match self.operand {
            Operand::Value(value) => value as u8,
            Operand::At(address) => self.read8(address),
            Operand::None => unreachable!("an inherent instruction has no operand"),
        }
    }

    /// The operand as a word.
    pub fn operand16(&self) -> u16 {
        match self.operand {
            Operand::Value(value) => value,
            Operand::At(address) => self.read16(address),
            Operand::None => unreachable!("an inherent instruction has no operand"),
        }
    }

    /// The effective address.
    pub fn address(&self) -> u16 {
        match self.operand {
            Operand::At(address) => address,
            _ => unreachable!("only a memory operand has an address"),
        }
    }

    /// Adds the branch offset to PC, which is the address after the instruction.
    pub fn branch(&mut self) {
        self.cpu.pc = self.cpu.pc.wrapping_add(self.offset);
        self.taken = true;
    }

    pub fn branch_if(&mut self, condition: bool) {
        if condition {
            self.branch();
        }
    }

    fn fetch8(&mut self) -> u8 {
        let value = self.read8(self.cursor);
        self.cursor = self.cursor.wrapping_add(1);
        value
    }

    fn fetch16(&mut self) -> u16 {
        let value = self.read16(self.cursor);
        self.cursor = self.cursor.wrapping_add(2);
        value
    }

    fn fetch_immediate8(&mut self) -> Operand {
        Operand::Value(u16::from(self.fetch8()))
    }

    fn fetch_relative8(&mut self) -> u16 {
        self.fetch8() as i8 as u16
    }

    /// Reads the operand bytes. PC already holds the address after the whole
    /// instruction, which is what PC stands for as a base (002 section 3.9.1).
    pub fn take_operands(&mut self, form: Form) {
        match form {
            Form::Inherent | Form::Prebyte | Form::ExtendedPage | Form::IndexedPage => {}
            Form::Immediate8 => self.operand = self.fetch_immediate8(),
            Form::Immediate16 => self.operand = Operand::Value(self.fetch16()),
            Form::Direct | Form::DirectMask | Form::DirectMaskRelative => {
                self.operand = Operand::At(u16::from(self.fetch8()))
            }
            Form::Extended | Form::ExtendedMask | Form::ExtendedMaskRelative => {
                self.operand = Operand::At(self.fetch16())
            }
            Form::Indexed | Form::IndexedMask | Form::IndexedMaskRelative => {
                self.operand = Operand::At(self.indexed_address(0))
            }
            Form::Relative8 => self.offset = self.fetch_relative8(),
            Form::Relative16 => self.offset = self.fetch16(),
            Form::Loop => self.take_loop(),
            Form::Transfer => self.postbyte = self.fetch8(),
            _ => self.take_move(form),
        }
        self.take_mask_and_offset(form);
    }

    /// The mask and the branch offset stand at the end (002 p. 6-27, 6-45).
    fn take_mask_and_offset(&mut self, form: Form) {
        match form {
            Form::DirectMask | Form::ExtendedMask | Form::IndexedMask => {
                self.mask = self.fetch8();
            }
            Form::DirectMaskRelative | Form::ExtendedMaskRelative | Form::IndexedMaskRelative => {
                self.mask = self.fetch8();
                self.offset = self.fetch_relative8();
            }
            _ => {}
        }
    }

    /// A 9-bit offset: bit 4 of the postbyte is its sign (002 p. 6-70).
    fn take_loop(&mut self) {
        self.postbyte = self.fetch8();
        let low = u16::from(self.fetch8());
        self.offset = if self.postbyte & 0x10 == 0 { low } else { low | 0xFF00 };
    }

    /// Moves. The argument of `indexed_address` is table 3-3 of 002 (section 3.9.1): what
    /// PC as a base is off by. An indexed destination of immediate or extended
    /// data has its postbyte first (002 p. 6-144, 6-145).
    fn take_move(&mut self, form: Form) {
        match form {
            Form::MoveImmediate8Extended => {
                self.operand = self.fetch_immediate8();
                self.destination = self.fetch16();
            }
            Form::MoveImmediate8Indexed => {
                self.destination = self.indexed_address(1);
                self.operand = self.fetch_immediate8();
            }
            Form::MoveImmediate16Extended => {
                self.operand = Operand::Value(self.fetch16());
                self.destination = self.fetch16();
            }
            Form::MoveImmediate16Indexed => {
                self.destination = self.indexed_address(2);
                self.operand = Operand::Value(self.fetch16());
            }
            Form::MoveExtendedExtended => {
                self.operand = Operand::At(self.fetch16());
                self.destination = self.fetch16();
            }
            Form::MoveExtendedIndexed => {
                self.destination = self.indexed_address(2);
                self.operand = Operand::At(self.fetch16());
            }
            Form::MoveIndexedExtended => {
                self.operand = Operand::At(self.indexed_address(-2));
                self.destination = self.fetch16();
            }
            Form::MoveIndexedIndexed => {
                self.operand = Operand::At(self.indexed_address(-1));
                self.destination = self.indexed_address(1);
            }
            _ => unreachable!("every other form is read by take_operands"),
        }
    }

    /// The effective address of an indexed postbyte. A base that steps is updated here,
    /// before the operation reads or writes it.
    fn indexed_address(&mut self, pc_correction: i16) -> u16 {
        let index = Index::decode(self.fetch8());
        let base = self.base(index.base(), pc_correction);
        match index {
            Index::Offset5 { offset, .. } => base.wrapping_add(offset as u16),
            Index::StepBefore { base: register, amount } => {
                let stepped = base.wrapping_add(amount as u16);
                self.set_base(register, stepped);
                stepped
            }
            Index::StepAfter { base: register, amount } => {
                self.set_base(register, base.wrapping_add(amount as u16));
                base
            }
            Index::Offset9 { negative, .. } => {
                let low = u16::from(self.fetch8());
                base.wrapping_add(if negative { low | 0xFF00 } else { low })
            }
            Index::Offset16 { .. } => base.wrapping_add(self.fetch16()),
            Index::Indirect16 { .. } => {
                let pointer = base.wrapping_add(self.fetch16());
                self.read16(pointer)
            }
            Index::Plus { accumulator, .. } => base.wrapping_add(self.unsigned(accumulator)),
            Index::IndirectD { .. } => self.read16(base.wrapping_add(self.cpu.d())),
        }
    }

    /// Accumulator offsets are unsigned (002 p. 3-9).
    fn unsigned(&self, accumulator: Accumulator) -> u16 {
        match accumulator {
            Accumulator::A => u16::from(self.cpu.a),
            Accumulator::B => u16::from(self.cpu.b),
            Accumulator::D => self.cpu.d(),
        }
    }

    fn base(&self, base: Base, pc_correction: i16) -> u16 {
        match base {
            Base::X => self.cpu.x,
            Base::Y => self.cpu.y,
            Base::Sp => self.cpu.sp,
            Base::Pc => self.cpu.pc.wrapping_add(pc_correction as u16),
        }
    }

    fn set_base(&mut self, base: Base, value: u16) {
        match base {
            Base::X => self.cpu.x = value,
            Base::Y => self.cpu.y = value,
            Base::Sp => self.cpu.sp = value,
            Base::Pc => unreachable!("no postbyte steps PC"),
        }
    }
}
