//! A simple, fast interpreter of the CPU12 in its HCS12 edition, by the rules of
//! docs/MACHINE.md: a struct of registers, a match on the opcode, and tables of lengths and
//! costs. It is the yardstick that the speed of the proved machine is held against
//! (docs/SPEED.md): what a Rust programmer would write who wants it fast and safe. It is not
//! `second/`, which follows the manual word by word and is slow on purpose.

#![forbid(unsafe_code)]

mod arithmetic;
mod core;
mod cost;
mod execute;
mod flags;
mod instructions;
mod operand;
mod run;
mod tables;

use crate::core::{Memory, RESET_VECTOR};
use cost::cost_of_next;
use run::run_until;

/// The registers, the waiting flag and the clock.
#[derive(Clone, Debug, Default, PartialEq, Eq)]
pub struct Cpu {
    pub a: u8,
    pub b: u8,
    pub x: u16,
    pub y: u16,
    pub sp: u16,
    pub pc: u16,
    ccr: u8,
    pub waiting: bool,
    pub clock: u32,
}

impl Cpu {
    pub fn ccr(&self) -> u8 {
        self.ccr
    }

    /// Sets all bits, X too.
    pub fn set_ccr(&mut self, ccr: u8) {
        self.ccr = ccr;
    }
}

/// From this cycle on the line byte is in force.
#[derive(Clone, Copy, Debug, PartialEq, Eq)]
pub struct Record {
    pub cycle: u32,
    pub line: u8,
}

/// The replies, in the order of their numbers.
#[derive(Clone, Copy, Debug, PartialEq, Eq)]
pub enum Reply {
    Done,
    WrongMemory,
    WrongSchedule,
    PastLimit,
    Stopped,
    ReservedPostbyte,
    WrongLine = 15,
}

impl Reply {
    pub fn number(self) -> u8 {
        self as u8
    }
}

/// What a step or a run answers.
#[derive(Clone, Copy, Debug, PartialEq, Eq)]
pub struct Outcome {
    pub reply: Reply,
    pub cycles: u32,
}

/// The bits of a line byte: XIRQ, IRQ and four devices. The others are refused.
const LINES: u8 = 0x3F;

const MOST_RECORDS: usize = 64;
const MOST_BUDGET: u32 = 100_000_000;
/// Of clock and budget together.
const MOST_CLOCK: u64 = 4_000_000_000;
/// Before a single step.
const MOST_STEP_CLOCK: u32 = 3_999_999_900;

/// S, X and I.
const RESET_CCR: u8 = 0xD0;

fn refused(reply: Reply) -> Outcome {
    Outcome { reply, cycles: 0 }
}

/// The state after a reset. PC is 0 where the memory is refused.
pub fn reset(memory: &[u8]) -> (Cpu, Reply) {
    let after = |pc| Cpu { pc, ccr: RESET_CCR, ..Cpu::default() };
    let high = usize::from(RESET_VECTOR);
    match <&Memory>::try_from(memory) {
        Ok(memory) => (after(u16::from_be_bytes([memory[high], memory[high + 1]])), Reply::Done),
        Err(_) => (after(0), Reply::WrongMemory),
    }
}

/// One step, as a run whose budget is exactly what the step costs.
pub fn step(cpu: &mut Cpu, memory: &mut [u8], line: u8) -> Outcome {
    let memory = match <&mut Memory>::try_from(memory) {
        Ok(memory) => memory,
        Err(_) => return refused(Reply::WrongMemory),
    };
    if line & !LINES != 0 {
        return refused(Reply::WrongLine);
    }
    if cpu.clock > MOST_STEP_CLOCK {
        return refused(Reply::PastLimit);
    }
    match cost_of_next(cpu, memory, line) {
        Err(reply) => refused(reply),
        Ok(cycles) => {
            // The reply tells what comes after the step, which was not asked.
            run_until(cpu.clock + cycles, cpu, memory, &[Record { cycle: 0, line }]);
            Outcome { reply: Reply::Done, cycles }
        }
    }
}

/// Steps until the budget is too short for the next one, or the machine stops.
pub fn run(cpu: &mut Cpu, memory: &mut [u8], schedule: &[Record], budget: u32) -> Outcome {
    let memory = match <&mut Memory>::try_from(memory) {
        Ok(memory) => memory,
        Err(_) => return refused(Reply::WrongMemory),
    };
    let rises = schedule.windows(2).all(|pair| pair[0].cycle < pair[1].cycle);
    if schedule.len() > MOST_RECORDS || !rises {
        return refused(Reply::WrongSchedule);
    }
    if schedule.iter().any(|record| record.line & !LINES != 0) {
        return refused(Reply::WrongLine);
    }
    if budget > MOST_BUDGET || u64::from(cpu.clock) + u64::from(budget) > MOST_CLOCK {
        return refused(Reply::PastLimit);
    }
    let begun = cpu.clock;
    let reply = run_until(begun + budget, cpu, memory, schedule);
    Outcome { reply, cycles: cpu.clock - begun }
}
