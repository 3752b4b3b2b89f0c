//! The steps of a run one after another, and what comes between instructions: requests, waits
//! and the end of the budget.

use crate::core::{Core, Index, Memory, XIRQ_VECTOR};
use crate::cost::cost_at;
use crate::flags::{I, X};
use crate::tables::LONGEST;
use crate::{Cpu, Record, Reply};

pub const ENTRY_COST: u32 = 9;
pub const WAIT_END_COST: u32 = 6;
pub const IDLE_COST: u32 = 1;
/// An RTI that takes a request; any other has the cost of its cell.
pub const RETURN_TO_REQUEST_COST: u32 = 10;

/// The line of XIRQ; its mask is X, that of the other lines I.
const XIRQ: u8 = 0x01;

/// A schedule, and how far it has been followed.
struct Lines<'s> {
    /// The byte in force.
    line: u8,
    /// The records that are still to come.
    rest: &'s [Record],
}

impl Lines<'_> {
    #[inline(always)]
    fn at(&mut self, clock: u32) -> u8 {
        while let [record, rest @ ..] = self.rest {
            if record.cycle > clock {
                break;
            }
            self.line = record.line;
            self.rest = rest;
        }
        self.line
    }

    /// The clock value of the next record.
    #[inline(always)]
    fn next_change(&self) -> u32 {
        self.rest.first().map_or(u32::MAX, |record| record.cycle)
    }
}

/// The lines that the masks X and I let in.
#[inline(always)]
pub fn open_lines(masks: u8) -> u8 {
    let xirq = if masks & X == 0 { XIRQ } else { 0 };
    let others = if masks & I == 0 { !XIRQ } else { 0 };
    xirq | others
}

/// The vector of the lowest of these lines.
#[inline(always)]
pub fn vector_of_lowest(let_in: u8) -> u16 {
    XIRQ_VECTOR - 2 * let_in.trailing_zeros() as u16
}

/// Steps until the clock is so near its end that the next step would pass it, or a refusal.
pub fn run_until(end: u32, cpu: &mut Cpu, memory: &mut Memory, schedule: &[Record]) -> Reply {
    let mut index = Index::default();
    let mut core = Core::take(cpu, &mut index, memory);
    let mut lines = Lines { line: 0, rest: schedule };
    let reply = loop {
        if core.clock >= core.look_at {
            if let Err(reply) = core.come_to_instruction(&mut lines, end) {
                break reply;
            }
        }
        if let Err(reply) = core.execute() {
            break reply;
        }
    };
    *cpu = core.give();
    reply
}

impl Core<'_> {
    /// Enters requests and waits until the next step is an instruction, and says how long
    /// nothing else can come. An error is the reply that ends the run.
    #[inline(always)]
    fn come_to_instruction(&mut self, lines: &mut Lines, end: u32) -> Result<(), Reply> {
        loop {
            self.line = lines.at(self.clock);
            let let_in = self.line & open_lines(self.flags.masks);
            if let_in != 0 {
                self.enter_request(let_in, end - self.clock)?;
            } else if self.waiting {
                self.idle(end.min(lines.next_change()))?;
            } else {
                break;
            }
        }
        let left = end - self.clock;
        if left < LONGEST && cost_at(self.memory, &self.give(), self.line)? > left {
            return Err(Reply::Done);
        }
        self.look_at = lines.next_change().min(end.saturating_sub(LONGEST - 1));
        Ok(())
    }

    /// The lowest line that is let in, from a wait or from the program.
    #[inline(always)]
    fn enter_request(&mut self, let_in: u8, left: u32) -> Result<(), Reply> {
        let cost = if self.waiting { WAIT_END_COST } else { ENTRY_COST };
        if cost > left {
            return Err(Reply::Done);
        }
        let vector = vector_of_lowest(let_in);
        if self.waiting {
            // WAI has pushed the frame already.
            self.pc = self.read16(vector);
            self.waiting = false;
        } else {
            self.pc = self.enter(vector, self.pc);
        }
        self.mask_requests(let_in);
        self.clock += cost;
        Ok(())
    }

    /// The masks of a handler: those of the lowest line that is let in.
    #[inline(always)]
    pub fn mask_requests(&mut self, let_in: u8) {
        self.flags.masks |= if let_in & XIRQ == 0 { I } else { X | I };
    }

    /// The idle cycles up to a clock value at once: nothing changes before it.
    #[inline(always)]
    fn idle(&mut self, until: u32) -> Result<(), Reply> {
        if self.clock == until {
            return Err(Reply::Done);
        }
        self.clock = until;
        Ok(())
    }
}
