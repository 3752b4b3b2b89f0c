//! The bytes of an instruction, and the addresses that they name.

use crate::core::{Core, Memory};
use crate::tables::{Cell, Form, FIRST_LONG, IDX};
use crate::Reply;

/// An instruction that is being done.
///
/// Its bytes are taken one after another, and `next` is counted up by numbers that the compiler
/// knows. Had it to be added up from the lengths in the map, every step would wait for the one
/// before it to look its length up.
pub struct Step {
    /// The bytes that are not yet taken, and some that follow, the first one highest.
    code: u64,
    /// Where PC will be.
    pub next: u16,
    /// What the instruction costs.
    pub cost: u32,
}

#[inline(always)]
pub fn first_byte(code: u64) -> u8 {
    (code >> 56) as u8
}

impl Step {
    /// `code` begins with the opcode, which is taken here.
    #[inline(always)]
    pub fn new(code: u64, after_opcode: u16, cell: Cell) -> Step {
        Step { code: code << 8, next: after_opcode, cost: cell.cost() }
    }

    #[inline(always)]
    pub fn peek8(&self) -> u8 {
        first_byte(self.code)
    }

    #[inline(always)]
    pub fn take8(&mut self) -> u8 {
        let byte = self.peek8();
        self.code <<= 8;
        self.next = self.next.wrapping_add(1);
        byte
    }

    #[inline(always)]
    pub fn take16(&mut self) -> u16 {
        let word = (self.code >> 48) as u16;
        self.code <<= 16;
        self.next = self.next.wrapping_add(2);
        word
    }

    /// The address of direct addressing.
    #[inline(always)]
    pub fn direct(&mut self) -> u16 {
        u16::from(self.take8())
    }

    /// The address of extended addressing.
    #[inline(always)]
    pub fn extended(&mut self) -> u16 {
        self.take16()
    }

    #[inline(always)]
    pub fn branch(&mut self, offset: u16) {
        self.next = self.next.wrapping_add(offset);
    }
}

/// Bits 4 to 0 with their sign.
#[inline(always)]
fn offset5(postbyte: u8) -> u16 {
    ((postbyte << 3) as i8 >> 3) as u16
}

/// 1 to 8 for nnnn from 0 to 7, -8 to -1 for nnnn from 8 to 15.
#[inline(always)]
fn step_amount(postbyte: u8) -> u16 {
    let signed = (postbyte << 4) as i8 >> 4;
    (i16::from(signed) + i16::from(signed >= 0)) as u16
}

/// Steps a register. Bit 4 says whether the address is the old or the new value.
#[inline(always)]
fn stepped(register: &mut u16, postbyte: u8) -> u16 {
    let before = *register;
    let after = before.wrapping_add(step_amount(postbyte));
    *register = after;
    if postbyte & 0x10 != 0 {
        before
    } else {
        after
    }
}

/// The bytes at PC, the first one highest.
#[inline(always)]
pub fn fetch(memory: &Memory, pc: u16) -> u64 {
    let at = usize::from(pc);
    match memory.get(at..at + 8).map(<[u8; 8]>::try_from) {
        Some(Ok(bytes)) => u64::from_be_bytes(bytes),
        _ => fetch_around_the_end(memory, pc),
    }
}

/// An instruction near $FFFF goes on at $0000.
#[cold]
fn fetch_around_the_end(memory: &Memory, pc: u16) -> u64 {
    let byte = |i| memory[usize::from(pc.wrapping_add(i))];
    u64::from_be_bytes([0, 1, 2, 3, 4, 5, 6, 7].map(byte))
}

impl Core<'_> {
    /// The address after the whole instruction, which PC stands for as a base.
    #[inline(always)]
    fn end_of(&self, cell: Cell, form: Form) -> u16 {
        self.pc.wrapping_add(cell.length()).wrapping_add(form.extension)
    }

    /// The operand's address by an indexed postbyte. A reserved one changes nothing.
    #[inline(always)]
    pub fn indexed(&mut self, cell: Cell, step: &mut Step) -> Result<u16, Reply> {
        let postbyte = step.take8();
        if postbyte < FIRST_LONG {
            return Ok(self.short_index(postbyte, self.end_of(cell, IDX)));
        }
        let form = Form::of_long(postbyte);
        step.cost = cell.cost_in(form);
        if step.cost == 0 {
            return Err(Reply::ReservedPostbyte);
        }
        let base = self.base(postbyte, self.end_of(cell, form));
        Ok(match postbyte & 7 {
            0 => base.wrapping_add(u16::from(step.take8())),
            1 => base.wrapping_add(u16::from(step.take8()) | 0xFF00),
            2 => base.wrapping_add(step.take16()),
            3 => self.read16(base.wrapping_add(step.take16())),
            7 => self.read16(base.wrapping_add(self.d())),
            _ => base.wrapping_add(self.accumulator(postbyte)),
        })
    }

    /// A postbyte below `FIRST_LONG`: five bits of offset, or a step of the register.
    #[inline(always)]
    fn short_index(&mut self, postbyte: u8, pc: u16) -> u16 {
        match self.index.get_mut(usize::from(postbyte >> 6)) {
            Some(register) if postbyte & 0x20 != 0 => stepped(register, postbyte),
            Some(register) => register.wrapping_add(offset5(postbyte)),
            None => pc.wrapping_add(offset5(postbyte)),
        }
    }

    /// The register that a postbyte from `FIRST_LONG` on starts from.
    #[inline(always)]
    fn base(&self, postbyte: u8, pc: u16) -> u16 {
        self.index.get(usize::from(postbyte >> 3 & 3)).copied().unwrap_or(pc)
    }

    /// The accumulators that a postbyte adds, without a sign.
    #[inline(always)]
    fn accumulator(&self, postbyte: u8) -> u16 {
        match postbyte & 7 {
            4 => u16::from(self.a),
            5 => u16::from(self.b),
            _ => self.d(),
        }
    }

    /// The address of a move's indexed side, whose postbyte is of the form IDX. PC as a base is
    /// off by a figure that depends on the move.
    #[inline(always)]
    pub fn move_index(&mut self, postbyte: u8, cell: Cell, figure: i8) -> u16 {
        let pc = self.end_of(cell, IDX).wrapping_add(figure as u16);
        if postbyte < FIRST_LONG {
            return self.short_index(postbyte, pc);
        }
        self.base(postbyte, pc).wrapping_add(self.accumulator(postbyte))
    }
}
