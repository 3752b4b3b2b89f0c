//! What the instructions do that need more than a line of the matches on the opcode.

use crate::core::{Core, IX, IY, SP};
use crate::flags::Flags;
use crate::operand::Step;
use crate::run::{open_lines, vector_of_lowest, RETURN_TO_REQUEST_COST};
use crate::tables::{
    loop_is_reserved, transfer_is_reserved, Cell, Form, LONG_UNTAKEN, SHORT_UNTAKEN,
};
use crate::Reply;

/// What PC as a base is off by in a move, by the opcodes 00 to 0D of page 2. For a move from
/// one indexed place to another it is the source's figure (table 3-3 of the reference manual).
static MOVE_FIGURES: [i8; 16] = [2, 2, -1, 0, 0, -2, 0, 0, 1, 2, -1, 0, 0, -2, 0, 0];

/// The same for the destination of a move from one indexed place to another.
const DESTINATION_FIGURE: i8 = 1;

/// Codes from 4 on name the registers of 16 bits: D, X, Y and SP.
#[inline(always)]
fn is_wide(register: u8) -> bool {
    register & 4 != 0
}

impl Core<'_> {
    #[inline(always)]
    pub fn compare8(&mut self, x: u8, m: u8) {
        self.flags.sub8(x, m, 0);
    }

    #[inline(always)]
    pub fn compare16(&mut self, x: u16, m: u16) {
        self.flags.sub16(x, m);
    }

    #[inline(always)]
    pub fn test8(&mut self, value: u8) {
        self.flags.logic8(value);
    }

    #[inline(always)]
    pub fn test_for_zero(&mut self, value: u8) {
        self.flags.tst8(value);
    }

    #[inline(always)]
    pub fn add_d(&mut self, m: u16) {
        let sum = self.flags.add16(self.d(), m);
        self.set_d(sum);
    }

    #[inline(always)]
    pub fn subtract_d(&mut self, m: u16) {
        let difference = self.flags.sub16(self.d(), m);
        self.set_d(difference);
    }

    #[inline(always)]
    pub fn load_d(&mut self, m: u16) {
        let loaded = self.flags.logic16(m);
        self.set_d(loaded);
    }

    #[inline(always)]
    pub fn shift_d(&mut self, shift: impl FnOnce(&mut Flags, u16) -> u16) {
        let before = self.d();
        let shifted = shift(&mut self.flags, before);
        self.set_d(shifted);
    }

    #[inline(always)]
    pub fn store8(&mut self, address: u16, value: u8) {
        self.flags.logic8(value);
        self.write8(address, value);
    }

    #[inline(always)]
    pub fn store16(&mut self, address: u16, value: u16) {
        self.flags.logic16(value);
        self.write16(address, value);
    }

    #[inline(always)]
    pub fn change8(&mut self, address: u16, change: impl FnOnce(&mut Flags, u8) -> u8) {
        let before = self.read8(address);
        let changed = change(&mut self.flags, before);
        self.write8(address, changed);
    }

    #[inline(always)]
    pub fn set_bits(&mut self, address: u16, mask: u8) {
        self.store8(address, self.read8(address) | mask);
    }

    #[inline(always)]
    pub fn clear_bits(&mut self, address: u16, mask: u8) {
        self.store8(address, self.read8(address) & !mask);
    }

    /// BRCLR, and BRSET with the complement.
    #[inline(always)]
    pub fn branch_if_clear(&mut self, value: u8, step: &mut Step) {
        let mask = step.take8();
        let offset = step.take8() as i8 as u16;
        if value & mask == 0 {
            step.branch(offset);
        }
    }

    #[inline(always)]
    pub fn branch_if(&mut self, condition: u8, step: &mut Step) {
        let offset = step.take8() as i8 as u16;
        if self.flags.condition(condition) {
            step.branch(offset);
        } else {
            step.cost = SHORT_UNTAKEN;
        }
    }

    #[inline(always)]
    pub fn long_branch_if(&mut self, condition: u8, step: &mut Step) {
        let offset = step.take16();
        if self.flags.condition(condition) {
            step.branch(offset);
        } else {
            step.cost = LONG_UNTAKEN;
        }
    }

    #[inline(always)]
    pub fn branch_to_subroutine(&mut self, step: &mut Step) {
        let offset = step.take8() as i8 as u16;
        self.push16(step.next);
        step.branch(offset);
    }

    #[inline(always)]
    pub fn call(&mut self, address: u16, step: &mut Step) {
        self.push16(step.next);
        step.next = address;
    }

    #[inline(always)]
    pub fn pull_ccr(&mut self) {
        let pulled = self.pull8();
        self.set_ccr(pulled);
    }

    #[inline(always)]
    pub fn pull_d(&mut self) {
        let pulled = self.pull16();
        self.set_d(pulled);
    }

    /// WAI. The next boundary has to be looked at, since the machine waits there.
    #[inline(always)]
    pub fn wait(&mut self, return_address: u16) {
        self.push_frame(return_address);
        self.waiting = true;
        self.look_at = 0;
    }

    /// RTI. Where the pulled masks let a line in, its handler comes next, and the frame stays as it
    /// is for the handler's own RTI.
    #[inline(always)]
    pub fn return_from_interrupt(&mut self, step: &mut Step) {
        let frame = self.index[SP];
        step.next = self.pull_frame();
        let let_in = self.line & open_lines(self.flags.masks);
        if let_in != 0 {
            self.index[SP] = frame;
            self.mask_requests(let_in);
            step.next = self.read16(vector_of_lowest(let_in));
            step.cost = RETURN_TO_REQUEST_COST;
        }
    }

    /// The register of a code in a postbyte, a byte without a sign.
    #[inline(always)]
    fn register(&self, code: u8) -> u16 {
        match code & 7 {
            0 => u16::from(self.a),
            1 => u16::from(self.b),
            4 => self.d(),
            5 => self.index[IX],
            6 => self.index[IY],
            7 => self.index[SP],
            _ => u16::from(self.flags.pack()),
        }
    }

    /// A register of 8 bits takes the low byte.
    #[inline(always)]
    fn set_register(&mut self, code: u8, value: u16) {
        match code & 7 {
            0 => self.a = value as u8,
            1 => self.b = value as u8,
            4 => self.set_d(value),
            5 => self.index[IX] = value,
            6 => self.index[IY] = value,
            7 => self.index[SP] = value,
            _ => self.set_ccr(value as u8),
        }
    }

    #[inline(always)]
    pub fn transfer_or_exchange(&mut self, postbyte: u8) -> Result<(), Reply> {
        if transfer_is_reserved(postbyte) {
            return Err(Reply::ReservedPostbyte);
        }
        let (first, second) = (postbyte >> 4, postbyte);
        let mut sent = self.register(first);
        if postbyte & 0x80 != 0 {
            let mut back = self.register(second);
            // A 16-bit register that is named first takes $FF with B or CCR, and $00 with A.
            if is_wide(first) && !is_wide(second) && second & 7 != 0 {
                back |= 0xFF00;
            }
            self.set_register(first, back);
        } else if is_wide(second) && !is_wide(first) {
            sent = sent as i8 as u16;
        }
        self.set_register(second, sent);
        Ok(())
    }

    /// The six loop primitives. Bits 7 and 6 of the postbyte say whether the counter goes down,
    /// stays or goes up, bit 5 whether to branch if it is not 0. Bit 4 is the offset's sign.
    #[inline(always)]
    pub fn count_and_branch(&mut self, step: &mut Step) -> Result<(), Reply> {
        let postbyte = step.take8();
        let offset = u16::from(step.take8()) | if postbyte & 0x10 != 0 { 0xFF00 } else { 0 };
        if loop_is_reserved(postbyte) {
            return Err(Reply::ReservedPostbyte);
        }
        let amount = u16::from(postbyte >> 6).wrapping_sub(1);
        let mut count = self.register(postbyte).wrapping_add(amount);
        self.set_register(postbyte, count);
        if !is_wide(postbyte) {
            count &= 0xFF;
        }
        if (count != 0) == (postbyte & 0x20 != 0) {
            step.branch(offset);
        }
        Ok(())
    }

    /// The address of a move's first postbyte, after both have been looked at where there are
    /// two.
    #[inline(always)]
    pub fn first_move_index(
        &mut self,
        opcode: u8,
        cell: Cell,
        step: &mut Step,
    ) -> Result<u16, Reply> {
        let (first, second) = (step.take8(), step.peek8());
        let is_reserved = |postbyte| cell.cost_in(Form::of(postbyte)) == 0;
        if is_reserved(first) || cell.is_indexed_twice() && is_reserved(second) {
            return Err(Reply::ReservedPostbyte);
        }
        let figure = MOVE_FIGURES[usize::from(opcode & 0xF)];
        Ok(self.move_index(first, cell, figure))
    }

    #[inline(always)]
    pub fn move8_to_index(&mut self, source: u16, cell: Cell, step: &mut Step) {
        let destination = self.move_index(step.take8(), cell, DESTINATION_FIGURE);
        self.write8(destination, self.read8(source));
    }

    #[inline(always)]
    pub fn move16_to_index(&mut self, source: u16, cell: Cell, step: &mut Step) {
        let destination = self.move_index(step.take8(), cell, DESTINATION_FIGURE);
        self.write16(destination, self.read16(source));
    }

    /// The end of a move whose source stands before the destination's address.
    #[inline(always)]
    pub fn put8(&mut self, value: u8, address: u16) {
        self.write8(address, value);
    }

    /// The same with a word.
    #[inline(always)]
    pub fn put16(&mut self, value: u16, address: u16) {
        self.write16(address, value);
    }

    /// MAXA and MINA give the larger or the smaller byte, with the codes of the subtraction.
    #[inline(always)]
    pub fn limit8(&mut self, address: u16, choose: impl FnOnce(u8, u8) -> u8) -> u8 {
        let m = self.read8(address);
        self.flags.sub8(self.a, m, 0);
        choose(self.a, m)
    }

    #[inline(always)]
    pub fn limit_memory8(&mut self, address: u16, choose: impl FnOnce(u8, u8) -> u8) {
        let chosen = self.limit8(address, choose);
        self.write8(address, chosen);
    }

    /// The same for words.
    #[inline(always)]
    fn limit16(&mut self, address: u16, choose: impl FnOnce(u16, u16) -> u16) -> u16 {
        let (d, m) = (self.d(), self.read16(address));
        self.flags.sub16(d, m);
        choose(d, m)
    }

    #[inline(always)]
    pub fn limit_d(&mut self, address: u16, choose: impl FnOnce(u16, u16) -> u16) {
        let chosen = self.limit16(address, choose);
        self.set_d(chosen);
    }

    #[inline(always)]
    pub fn limit_memory16(&mut self, address: u16, choose: impl FnOnce(u16, u16) -> u16) {
        let chosen = self.limit16(address, choose);
        self.write16(address, chosen);
    }
}
