//! One run on one machine, and its time.

use crate::images::Image;
use crate::of_the_second::state_of;
use crate::thread_time;
use cpu12::{Error, Machine, State};
use second::boundary::{Kind, Next};
use second::machine;
use std::time::Duration;

/// The shortest time so far.
pub struct Timed {
    best: Duration,
}

impl Timed {
    pub fn never() -> Timed {
        Timed { best: Duration::MAX }
    }

    pub fn seconds(&self) -> f64 {
        self.best.as_secs_f64()
    }

    fn take<T>(&mut self, work: impl FnOnce() -> T) -> T {
        let begun = thread_time::now();
        let result = work();
        self.best = self.best.min(thread_time::now() - begun);
        result
    }
}

/// What a run leaves.
#[derive(Debug, PartialEq, Eq)]
pub struct Left {
    pub reply: u32,
    pub cycles: u32,
    pub state: State,
    pub memory: Vec<u8>,
}

impl Left {
    /// What can be shown in a line or two.
    pub fn without_memory(&self) -> Left {
        Left { memory: Vec::new(), ..*self }
    }
}

/// A machine's run of an image.
pub type Run = fn(&Image, &mut Timed) -> Left;

/// Times what a machine does with the image's memory, from its reset on, and gives what is left. The work's result is the reply, the
/// cycles and the state.
fn left_by(
    image: &Image,
    timed: &mut Timed,
    work: impl FnOnce(&mut [u8]) -> (u32, u32, State),
) -> Left {
    let mut memory = image.memory.clone();
    let (reply, cycles, state) = timed.take(|| work(&mut memory));
    Left { reply, cycles, state, memory }
}

pub fn by_the_proved(image: &Image, timed: &mut Timed) -> Left {
    left_by(image, timed, |memory| {
        let mut machine = Machine::new(State::default());
        let answer =
            machine.reset(memory).and_then(|_| machine.run(memory, &image.schedule, image.budget));
        let reply = answer.map_or_else(Error::number, |_| 0);
        (reply, machine.cycles(), machine.state())
    })
}

pub fn by_simple(image: &Image, timed: &mut Timed) -> Left {
    let to_record = |r: &cpu12::Record| simple::Record { cycle: r.cycle, line: r.line };
    let schedule: Vec<_> = image.schedule.iter().map(to_record).collect();
    left_by(image, timed, |memory| {
        let (mut cpu, _) = simple::reset(memory);
        let outcome = simple::run(&mut cpu, memory, &schedule, image.budget);
        (outcome.reply.number().into(), outcome.cycles, state_of_simple(&cpu))
    })
}

fn state_of_simple(cpu: &simple::Cpu) -> State {
    let mut state = State::default();
    (state.a, state.b, state.x, state.y) = (cpu.a, cpu.b, cpu.x, cpu.y);
    (state.sp, state.pc, state.ccr) = (cpu.sp, cpu.pc, cpu.ccr());
    (state.waiting, state.clock) = (cpu.waiting, cpu.clock);
    state
}

pub fn by_the_second(image: &Image, timed: &mut Timed) -> Left {
    let schedule = schedule_for_the_second(image);
    left_by(image, timed, |memory| {
        let (mut cpu, _) = machine::reset(memory);
        let outcome = machine::run(&mut cpu, memory, &schedule, image.budget);
        (outcome.reply.number().into(), outcome.cycles, state_of(&cpu))
    })
}

fn schedule_for_the_second(image: &Image) -> Vec<machine::Record> {
    let to_record = |r: &cpu12::Record| machine::Record { cycle: r.cycle, lines: r.line };
    image.schedule.iter().map(to_record).collect()
}

/// What a run consists of. An idle cycle is a step too.
#[derive(Default)]
pub struct Steps {
    pub all: u32,
    pub idle: u32,
}

pub fn steps(image: &Image) -> Steps {
    let mut memory = image.memory.clone();
    let (mut cpu, _) = machine::reset(&memory);
    let schedule = schedule_for_the_second(image);
    let mut steps = Steps::default();
    machine::run_watched(&mut cpu, &mut memory, &schedule, image.budget, &mut |_, _, next| {
        steps.all += 1;
        steps.idle += u32::from(matches!(next, Next::Do(effect) if effect.kind == Kind::Idle));
    });
    steps
}
