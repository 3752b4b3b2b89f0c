//! Cases around an RTI. A walk through the cells comes to RTI once in 512 times, and then
//! hardly ever with a request that the masks hold back before it and let in after it.

use super::{finish, Draft, Generator, LAST_VECTOR};
use crate::case::{Action, Case};
use crate::cpu::{Cpu, I, X};
use crate::machine::Record;

const RTI: u8 = 0x0B;

impl Generator {
    /// A step at RTI.
    pub(super) fn return_step(&mut self) -> Case {
        let mut draft = self.draft_at_frame();
        draft.put(draft.cpu.pc, RTI);
        draft.cpu.waiting = self.random.chance(3);
        draft.cpu.clock = self.step_clock();
        let lines = self.lines_up();
        let (length, seed) = (self.length(), self.seed());
        finish(length, seed, draft.overlay, Action::Step { cpu: draft.cpu, lines })
    }

    /// A run whose first RTI comes soon, with lines that rise and fall around it.
    pub(super) fn return_run(&mut self) -> Case {
        let mut draft = self.draft_at_frame();
        let before: [&[u8]; 6] =
            [&[], &[], &[0xA7], &[0xA7, 0xA7, 0xA7], &[0x18, 0x10], &[0x14, 0x50]];
        let place = draft.put_all(draft.cpu.pc, self.random.pick(&before));
        draft.put(place, RTI);
        let clock = self.random.below(3_800_000_000);
        draft.cpu.clock = clock;
        let budget = match self.random.below(3) {
            0 => self.random.between(7, 12),
            1 => self.random.between(10, 40),
            _ => self.random.between(40, 300),
        };
        let schedule = self.lines_around(clock);
        let (length, seed) = (self.length(), self.seed());
        let action = Action::Run { cpu: draft.cpu, budget, schedule };
        let case = finish(length, seed, draft.overlay, action);
        self.at_an_edge(case)
    }

    /// A machine whose SP points at a frame, which may lie over the vectors.
    fn draft_at_frame(&mut self) -> Draft {
        let mut draft = self.draft(1, RTI);
        draft.cpu.sp = self.frame_pointer(draft.cpu.pc);
        draft.cpu.ccr |= self.random.pick(&[X | I, X | I, X | I, I, X, 0]);
        if self.random.chance(70) {
            self.add_vectors(&mut draft);
        }
        let mut codes = self.random.byte();
        if self.random.chance(70) {
            codes &= !I;
        }
        let place = draft.put_all(draft.cpu.sp, &[codes]);
        let registers: [u8; 6] = std::array::from_fn(|_| self.random.byte());
        let place = draft.put_all(place, &registers);
        let back = self.edge16(&[draft.cpu.pc, draft.cpu.sp]);
        draft.put_all(place, &back.to_be_bytes());
        if self.random.chance(60) {
            self.add_what_is_returned_to(&mut draft, back);
        }
        draft
    }

    /// SP where a frame covers a vector or goes over the end of memory, or anywhere.
    fn frame_pointer(&mut self, pc: u16) -> u16 {
        let first_over_vectors = u32::from(LAST_VECTOR - (Cpu::FRAME - 1));
        match self.random.below(6) {
            0 | 1 => {
                self.random.between(first_over_vectors, u32::from(Cpu::XIRQ_VECTOR) + 1) as u16
            }
            2 => self.random.between(0xFFF7, 0xFFFF) as u16,
            _ => self.stack_pointer(pc),
        }
    }

    /// Some instructions that take a while, and a wait, a stop, a loop or another RTI.
    fn add_what_is_returned_to(&mut self, draft: &mut Draft, address: u16) {
        let work: [&[u8]; 4] = [&[], &[0xA7], &[0x10, 0xAF], &[0x42, 0x18, 0x10]];
        let ends: [&[u8]; 5] = [&[0x3E], &[0x00], &[0x20, 0xFE], &[RTI], &[0x3F]];
        let place = draft.put_all(address, self.random.pick(&work));
        draft.put_all(place, self.random.pick(&ends));
    }

    /// One line, or any byte: in most of those a low line is up, which goes first.
    fn lines_up(&mut self) -> u8 {
        if self.random.chance(50) {
            1 << self.random.below(u32::from(Cpu::LINES))
        } else {
            self.random.below(1 << Cpu::LINES) as u8
        }
    }

    /// Records a few cycles apart, from a little before the clock on.
    fn lines_around(&mut self, clock: u32) -> Vec<Record> {
        let mut cycle = clock.saturating_sub(self.random.below(6));
        let mut schedule = Vec::new();
        for _ in 0..self.random.between(1, 10) {
            let lines = if self.random.chance(75) { self.lines_up() } else { 0 };
            schedule.push(Record { cycle, lines });
            cycle = cycle.saturating_add(self.random.between(1, 14));
        }
        schedule
    }
}
