//! The three operations and their numbered replies.

use crate::boundary::{next, Effect, Next};
use crate::cpu::Cpu;
use crate::memory::{read16, SIZE};

/// The largest budget of a run.
pub const MOST_BUDGET: u32 = 100_000_000;
/// The largest sum of clock and budget.
pub const MOST_CLOCK: u64 = 4_000_000_000;
/// The largest clock at which a single step is taken.
pub const MOST_STEP_CLOCK: u32 = 3_999_999_900;
/// The longest schedule.
pub const MOST_RECORDS: usize = 64;

/// The numbered replies.
#[derive(Clone, Copy, Debug, PartialEq, Eq)]
pub enum Reply {
    /// The step or reset was done; the run's next step costs more than is left.
    Done,
    /// The memory is not 65,536 bytes long.
    WrongMemory,
    /// The schedule is too long or does not rise.
    WrongSchedule,
    /// The clock or the budget is too large.
    WrongTime,
    /// An encoding that stops the machine.
    Stop,
    /// A reserved postbyte.
    Reserved,
    /// A line byte with a bit that is no line.
    WrongLine,
}

impl Reply {
    /// All of them, in the order of their numbers.
    pub const ALL: [Reply; 7] = [
        Reply::Done,
        Reply::WrongMemory,
        Reply::WrongSchedule,
        Reply::WrongTime,
        Reply::Stop,
        Reply::Reserved,
        Reply::WrongLine,
    ];

    pub fn number(self) -> u8 {
        match self {
            Reply::Done => 0,
            Reply::WrongMemory => 1,
            Reply::WrongSchedule => 2,
            Reply::WrongTime => 3,
            Reply::Stop => 4,
            Reply::Reserved => 5,
            Reply::WrongLine => 15,
        }
    }
}

/// What an operation answers; the registers and bytes are changed in place.
#[derive(Clone, Copy, Debug, PartialEq, Eq)]
pub struct Outcome {
    pub reply: Reply,
    pub cycles: u32,
}

fn refused(reply: Reply) -> Outcome {
    Outcome { reply, cycles: 0 }
}

/// From this cycle on the lines are as given.
#[derive(Clone, Copy, Debug, PartialEq, Eq)]
pub struct Record {
    pub cycle: u32,
    pub lines: u8,
}

/// Reset: the word at $FFFE goes to PC. It stores no byte and costs nothing.
pub fn reset(memory: &[u8]) -> (Cpu, Outcome) {
    if memory.len() != SIZE {
        return (Cpu::after_reset(0), refused(Reply::WrongMemory));
    }
    let pc = read16(memory, Cpu::RESET_VECTOR);
    (Cpu::after_reset(pc), Outcome { reply: Reply::Done, cycles: 0 })
}

fn carry_out(effect: &Effect, cpu: &mut Cpu, memory: &mut [u8]) {
    *cpu = effect.cpu;
    effect.writes.apply(memory);
}

/// One step under the given line byte.
pub fn step(cpu: &mut Cpu, memory: &mut [u8], lines: u8) -> Outcome {
    step_watched(cpu, memory, lines, &mut |_, _, _| {})
}

/// Is told of each step before it is done, and of a refusal by 4 or 5: the state, the
/// memory and what comes next.
pub type Watcher<'w> = dyn FnMut(&Cpu, &[u8], &Next) + 'w;

pub fn step_watched(cpu: &mut Cpu, memory: &mut [u8], lines: u8, watcher: &mut Watcher) -> Outcome {
    if memory.len() != SIZE {
        return refused(Reply::WrongMemory);
    }
    if !lines_are_right(lines) {
        return refused(Reply::WrongLine);
    }
    if cpu.clock > MOST_STEP_CLOCK {
        return refused(Reply::WrongTime);
    }
    let coming = next(cpu, memory, lines);
    watcher(cpu, memory, &coming);
    match coming {
        Next::Stops => refused(Reply::Stop),
        Next::Reserved => refused(Reply::Reserved),
        Next::Do(effect) => {
            carry_out(&effect, cpu, memory);
            Outcome { reply: Reply::Done, cycles: effect.cost }
        }
    }
}

/// The byte in force: the last record's at or before the clock, else 0.
pub fn lines_at(schedule: &[Record], clock: u32) -> u8 {
    schedule.iter().rev().find(|record| record.cycle <= clock).map_or(0, |record| record.lines)
}

fn schedule_is_right(schedule: &[Record]) -> bool {
    schedule.len() <= MOST_RECORDS && schedule.windows(2).all(|pair| pair[0].cycle < pair[1].cycle)
}

/// Bits 6 and 7 were the lines of the keypad board, which is withdrawn. A byte that sets one
/// is refused and not read without it, since a recorded run would else do something new.
fn lines_are_right(lines: u8) -> bool {
    lines >> Cpu::LINES == 0
}

/// A refusal costs nothing, so it is given even with nothing left.
fn costs_more_than(coming: &Next, left: u32) -> bool {
    matches!(coming, Next::Do(effect) if effect.cost > left)
}

/// Why a run is refused, if it is, in the order of the tests. Every record counts, whether it
/// would come into force or not.
fn run_refusal(cpu: &Cpu, memory: &[u8], schedule: &[Record], budget: u32) -> Option<Reply> {
    if memory.len() != SIZE {
        Some(Reply::WrongMemory)
    } else if !schedule_is_right(schedule) {
        Some(Reply::WrongSchedule)
    } else if !schedule.iter().all(|record| lines_are_right(record.lines)) {
        Some(Reply::WrongLine)
    } else if budget > MOST_BUDGET || u64::from(cpu.clock) + u64::from(budget) > MOST_CLOCK {
        Some(Reply::WrongTime)
    } else {
        None
    }
}

/// A run: steps until the next one costs more than is left, or a refusal.
pub fn run(cpu: &mut Cpu, memory: &mut [u8], schedule: &[Record], budget: u32) -> Outcome {
    run_watched(cpu, memory, schedule, budget, &mut |_, _, _| {})
}

pub fn run_watched(
    cpu: &mut Cpu,
    memory: &mut [u8],
    schedule: &[Record],
    budget: u32,
    watcher: &mut Watcher,
) -> Outcome {
    if let Some(reply) = run_refusal(cpu, memory, schedule, budget) {
        return refused(reply);
    }
    let mut cycles = 0;
    loop {
        let coming = next(cpu, memory, lines_at(schedule, cpu.clock));
        if costs_more_than(&coming, budget - cycles) {
            return Outcome { reply: Reply::Done, cycles };
        }
        watcher(cpu, memory, &coming);
        match coming {
            Next::Stops => return Outcome { reply: Reply::Stop, cycles },
            Next::Reserved => return Outcome { reply: Reply::Reserved, cycles },
            Next::Do(effect) => {
                carry_out(&effect, cpu, memory);
                cycles += effect.cost;
            }
        }
    }
}
