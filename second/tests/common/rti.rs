//! What can come of an RTI under requests, as a set of cases is held to it.

use second::boundary::{next, Kind, Next};
use second::case::{answer_watched, Action, Case, Memories};
use second::cpu::{Cpu, I, X};
use second::machine::{lines_at, run, Record, Reply};
use second::memory::{read16, read8, SIZE};
use std::collections::BTreeSet;

const RTI: u8 = 0x0B;
const WAI: u8 = 0x3E;

/// How long a chain of handlers is told from a longer one.
pub const LONG_CHAIN: u32 = 4;

#[derive(Clone, Copy, Debug, PartialEq, Eq, PartialOrd, Ord)]
pub enum Met {
    /// A single step where RTI stands: the line byte, the masks before and those in the frame.
    Masks { lines: u8, before: u8, stacked: u8 },
    /// A machine that waits where RTI stands, with a line up.
    Waiting,
    /// The line that is taken, and where in the frame its vector's first byte lies: -1 to 8.
    VectorInFrame { line: u8, place: i8 },
    /// The line that is taken, with SP where the frame goes over the end of memory.
    OverTheEnd { line: u8, sp: u16 },
    /// RTI would take a request, and a run ends before it with as many cycles left.
    Left(u32),
    /// So many cycles after an RTI began a line rises, which is entered after it.
    Rises(u32),
    /// So many cycles after an RTI began the line falls that it takes.
    Falls(u32),
    /// So many RTI in one chain have taken a request, with nothing but handlers between.
    Chain(u32),
    /// RTI takes a request, and its frame leads to WAI.
    PastWait,
    /// RTI comes back to WAI.
    BackToWait,
}

/// All of them.
pub fn all() -> BTreeSet<Met> {
    let masks = [0, I, X, X | I];
    let mut all: BTreeSet<Met> = BTreeSet::new();
    for lines in 0..1 << Cpu::LINES {
        for before in masks {
            all.extend(masks.map(|stacked| Met::Masks { lines, before, stacked }));
        }
    }
    for line in 0..Cpu::LINES {
        all.extend((-1..=8).map(|place| Met::VectorInFrame { line, place }));
        all.extend((0xFFF8..=0xFFFF).map(|sp| Met::OverTheEnd { line, sp }));
    }
    all.extend((0..10).map(Met::Left));
    all.extend((1..=8).map(Met::Rises));
    all.extend((1..=10).map(Met::Falls));
    all.extend((1..=LONG_CHAIN).map(Met::Chain));
    all.extend([Met::Waiting, Met::PastWait, Met::BackToWait]);
    all
}

/// What the case meets of it.
pub fn met(case: &Case, memories: &mut Memories) -> BTreeSet<Met> {
    let mut watch = Watch::default();
    let schedule: &[Record] = match &case.action {
        Action::Run { schedule, .. } => schedule,
        _ => &[],
    };
    answer_watched(case, memories, &mut |cpu, memory, coming| {
        if let (Action::Step { lines, .. }, RTI) = (&case.action, read8(memory, cpu.pc)) {
            watch.single_step(cpu, memory, *lines);
        }
        watch.step(cpu, memory, coming, schedule);
    });
    watch.met.extend(left_before_rti(case, memories));
    watch.met
}

#[derive(Default)]
struct Watch {
    met: BTreeSet<Met>,
    /// When an RTI began that came back, if that was the step before.
    came_back_from: Option<u32>,
    chain: u32,
}

impl Watch {
    fn single_step(&mut self, cpu: &Cpu, memory: &[u8], lines: u8) {
        if cpu.waiting {
            self.met.extend((lines != 0).then_some(Met::Waiting));
            return;
        }
        let (before, stacked) = (cpu.ccr & (X | I), read8(memory, cpu.sp) & (X | I));
        self.met.insert(Met::Masks { lines, before, stacked });
    }

    fn step(&mut self, cpu: &Cpu, memory: &[u8], coming: &Next, schedule: &[Record]) {
        let began = self.came_back_from.take();
        let effect = match coming {
            Next::Do(effect) => effect,
            _ => return,
        };
        match effect.kind {
            Kind::ReturnToRequest(line) => self.taken(cpu, memory, line, schedule),
            Kind::Instruction { page: 1, opcode: RTI } => {
                self.came_back_from = Some(cpu.clock);
                self.chain = 0;
                let to_wait = read8(memory, effect.cpu.pc) == WAI;
                self.met.extend(to_wait.then_some(Met::BackToWait));
            }
            Kind::Entry(line) => {
                self.chain = 0;
                let rose = began.and_then(|began| last_rise(schedule, began, cpu.clock, line));
                self.met.extend(rose.map(Met::Rises));
            }
            _ => {}
        }
    }

    fn taken(&mut self, cpu: &Cpu, memory: &[u8], line: u8, schedule: &[Record]) {
        self.chain = LONG_CHAIN.min(self.chain + 1);
        self.met.insert(Met::Chain(self.chain));
        let place = Cpu::request_vector(line).wrapping_sub(cpu.sp) as i16;
        if (-1..=8).contains(&place) {
            self.met.insert(Met::VectorInFrame { line, place: place as i8 });
        }
        if cpu.sp >= 0xFFF8 {
            self.met.insert(Met::OverTheEnd { line, sp: cpu.sp });
        }
        let falls = schedule.iter().find(|r| r.cycle > cpu.clock && r.lines >> line & 1 == 0);
        let after = falls.map(|record| record.cycle - cpu.clock).filter(|&after| after <= 10);
        self.met.extend(after.map(Met::Falls));
        let back = read16(memory, cpu.sp.wrapping_add(7));
        self.met.extend((read8(memory, back) == WAI).then_some(Met::PastWait));
    }
}

/// When a line last rose between two clock values, from the first one on.
fn last_rise(schedule: &[Record], from: u32, to: u32, line: u8) -> Option<u32> {
    let up = |clock: u32| lines_at(schedule, clock) >> line & 1 == 1;
    (from + 1..=to).rev().find(|&clock| up(clock) && !up(clock - 1)).map(|clock| clock - from)
}

/// The cycles that a run leaves before an RTI that would take a request.
fn left_before_rti(case: &Case, memories: &mut Memories) -> Option<Met> {
    let (mut cpu, budget, schedule) = match &case.action {
        Action::Run { cpu, budget, schedule } if case.length == SIZE as u32 => {
            (*cpu, *budget, schedule)
        }
        _ => return None,
    };
    let memory = memories.lay_out(case);
    let outcome = run(&mut cpu, memory, schedule, budget);
    if outcome.reply != Reply::Done {
        return None;
    }
    match next(&cpu, memory, lines_at(schedule, cpu.clock)) {
        Next::Do(effect) if matches!(effect.kind, Kind::ReturnToRequest(_)) => {
            Some(Met::Left(budget - outcome.cycles))
        }
        _ => None,
    }
}
