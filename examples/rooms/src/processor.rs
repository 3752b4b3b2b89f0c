//! What runs the firmware: the proved machine in both tiers of the guide, and the second emulator in the sign on the door. They are
//! two readings of the manual that share no text, so where their answers are alike, that says something.

use cpu12::{doors, Error, Machine, Record, State};
use second::cpu::Cpu;
use second::machine::{self, Reply};

/// How a run ended.
#[derive(Clone, Copy, Debug, PartialEq, Eq)]
pub enum Ended {
    /// The next step costs more than is left.
    Spent,
    /// The firmware came to an encoding that stops the machine.
    Stopped,
}

/// What the world sees of a processor.
pub struct Seen {
    pub pc: u16,
    pub ccr: u8,
    pub waiting: bool,
    pub clock: u32,
}

/// A processor over a memory that is lent to it. A refusal is a fault of this program, and ends it.
pub trait Processor: Clone {
    fn reset(memory: &[u8]) -> Self;
    fn step(&mut self, memory: &mut [u8], line: u8) -> Ended;
    fn run(&mut self, memory: &mut [u8], schedule: &[Record], budget: u32) -> Ended;
    fn seen(&self) -> Seen;
}

/// The proved machine, through the static library.
#[derive(Clone)]
pub struct Proved(Machine);

impl Proved {
    /// The state record, to be kept.
    pub fn record(&self) -> [u8; doors::STATE] {
        *self.0.record()
    }

    /// The machine of which this record was kept.
    pub fn of_record(record: &[u8]) -> Proved {
        Proved(Machine::of_record(record).expect("a machine had this record"))
    }

    fn ended(reply: Result<u32, Error>) -> Ended {
        match reply {
            Ok(_) => Ended::Spent,
            Err(Error::Stopped) => Ended::Stopped,
            Err(refused) => panic!("{}", refused),
        }
    }
}

impl Processor for Proved {
    fn reset(memory: &[u8]) -> Proved {
        let mut machine = Machine::new(State::default());
        machine.reset(memory).expect("the image is 65,536 bytes long");
        Proved(machine)
    }

    fn step(&mut self, memory: &mut [u8], line: u8) -> Ended {
        Proved::ended(self.0.step(memory, line))
    }

    fn run(&mut self, memory: &mut [u8], schedule: &[Record], budget: u32) -> Ended {
        Proved::ended(self.0.run(memory, schedule, budget))
    }

    fn seen(&self) -> Seen {
        let state = self.0.state();
        Seen { pc: state.pc, ccr: state.ccr, waiting: state.waiting, clock: state.clock }
    }
}

/// The second emulator.
#[derive(Clone)]
pub struct Second(Cpu);

impl Second {
    fn ended(reply: Reply) -> Ended {
        match reply {
            Reply::Done => Ended::Spent,
            Reply::Stop => Ended::Stopped,
            refused => panic!("{:?}", refused),
        }
    }
}

impl Processor for Second {
    fn reset(memory: &[u8]) -> Second {
        let (cpu, outcome) = machine::reset(memory);
        assert_eq!(outcome.reply, Reply::Done, "the image is 65,536 bytes long");
        Second(cpu)
    }

    fn step(&mut self, memory: &mut [u8], line: u8) -> Ended {
        Second::ended(machine::step(&mut self.0, memory, line).reply)
    }

    fn run(&mut self, memory: &mut [u8], schedule: &[Record], budget: u32) -> Ended {
        let of_the_second = |r: &Record| machine::Record { cycle: r.cycle, lines: r.line };
        let schedule: Vec<machine::Record> = schedule.iter().map(of_the_second).collect();
        Second::ended(machine::run(&mut self.0, memory, &schedule, budget).reply)
    }

    fn seen(&self) -> Seen {
        let Cpu { pc, ccr, waiting, clock, .. } = self.0;
        Seen { pc, ccr, waiting, clock }
    }
}
