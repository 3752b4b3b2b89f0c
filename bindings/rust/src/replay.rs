use crate::schedule::Packed;
use crate::{doors, lines, Error, Machine, Record, State};

/// A record of a long schedule: from this cycle on, this line byte.
#[derive(Clone, Copy, Debug, PartialEq, Eq)]
pub struct LongRecord {
    /// The cycle number.
    pub cycle: u64,
    /// The line byte: see [`lines`](crate::lines).
    pub line: u8,
}

/// The largest budget that the machine accepts for one run.
const MOST_BUDGET: u64 = 100_000_000;

/// The records to come that one run can be handed: its first record restates the line byte in force.
const MOST_COMING: usize = doors::RECORDS - 1;

/// A machine with 64-bit time, a schedule of any length and budgets of any size.
///
/// A single [`Machine::run`] takes 64 records and 100,000,000 cycles, and its clock ends at 4,000,000,000, which is 500 seconds of a
/// sign at 8 MHz. A replay leaves what one run without these limits would leave: it splits the time into runs, sets the machine's clock
/// back to 0 before each, with the records to come less by the same amount, and restates the line byte in force as a record at cycle
/// 0. That this comes to the same is proved of the machine, by `TheClockMayBeSetBack` and what follows it in
/// `crates/promises/specs/SetBack.antt` and by `RunsGoOn`. The splitting itself is Rust: it is tested beside the second emulator, which
/// runs in one piece, and it is not proved.
///
/// ```rust
/// use cpu12::{lines, LongRecord, Machine, Replay, State};
///
/// let mut memory = vec![0; 65_536];
/// memory[0x4000..0x4005].copy_from_slice(&[0xCF, 0x20, 0x00, 0x10, 0xEF]); // LDS #$2000, ANDCC #$EF: I is clear
/// memory[0x4005..0x4009].copy_from_slice(&[0x3E, 0x08, 0x20, 0xFC]); // WAI, INX, BRA to the WAI
/// memory[0x5000] = 0x0B; // the handler: RTI
/// memory[0xFFFE] = 0x40; // the reset vector: $4000
/// memory[0xFFF2] = 0x50; // the vector of IRQ: $5000
///
/// // A thousand requests, each up for one cycle, from beyond the end of the machine's own clock.
/// let start = 4_000_000_000;
/// let up = |n: u64| LongRecord { cycle: start + n * 2_000, line: lines::IRQ };
/// let down = |n: u64| LongRecord { cycle: start + n * 2_000 + 1, line: 0 };
/// let schedule: Vec<LongRecord> = (1..=1_000).flat_map(|n| [up(n), down(n)]).collect();
///
/// let mut machine = Machine::new(State::default());
/// assert_eq!(machine.reset(&memory), Ok(()));
/// let mut replay = Replay::new(machine.state(), start, &schedule).expect("the cycles rise");
/// assert_eq!(replay.run(&mut memory, 2_500_000), Ok(2_500_000));
/// assert_eq!((replay.state().x, replay.time()), (1_000, 4_002_500_000));
/// ```
#[derive(Clone, Copy, Debug)]
pub struct Replay<'s> {
    /// Its clock is 0 between the runs: `time` stands in its place.
    machine: Machine,
    time: u64,
    cycles: u64,
    schedule: &'s [LongRecord],
}

/// One run of the machine within a replay.
struct Leg {
    schedule: Packed,
    budget: u32,
}

impl<'s> Replay<'s> {
    /// The machine with this state at this time, under this schedule. `time` stands in the place of the state's own clock, which is
    /// not read. Cycles that do not strictly rise are [`Error::WrongSchedule`]. After that test, a line byte with bit 6 or 7 set is
    /// [`Error::WrongLine`], in whichever record: it is asked of the whole schedule here, so that no replay is refused half way.
    pub fn new(state: State, time: u64, schedule: &'s [LongRecord]) -> Result<Replay<'s>, Error> {
        if schedule.windows(2).any(|pair| pair[0].cycle >= pair[1].cycle) {
            return Err(Error::WrongSchedule);
        }
        if schedule.iter().any(|record| record.line & !lines::ALL != 0) {
            return Err(Error::WrongLine);
        }
        Ok(Replay { machine: set_back(state), time, cycles: 0, schedule })
    }

    /// The state, with 0 for the clock: [`Replay::time`] has the time.
    pub fn state(&self) -> State {
        self.machine.state()
    }

    /// The time, in cycles.
    pub fn time(&self) -> u64 {
        self.time
    }

    /// The cycles that the last run used.
    pub fn cycles(&self) -> u64 {
        self.cycles
    }

    /// Steps until the next one costs more than is left of the budget, and the cycles that they used. A machine that stops before that
    /// gives [`Error::Stopped`] or [`Error::ReservedPostbyte`]; then [`Replay::cycles`] has the cycles used.
    ///
    /// A memory of another length is [`Error::WrongMemory`]. After that test, a budget with which the time would come past
    /// `u64::MAX` is [`Error::PastLimit`]. Both leave all as it was, with 0 cycles used.
    pub fn run(&mut self, memory: &mut [u8], budget: u64) -> Result<u64, Error> {
        self.cycles = 0;
        if memory.len() != doors::MEMORY {
            return Err(Error::WrongMemory);
        }
        if self.time.checked_add(budget).is_none() {
            return Err(Error::PastLimit);
        }
        loop {
            let left = budget - self.cycles;
            let leg = self.next_leg(left);
            self.take(&leg, memory)?;
            // A leg that ended sooner ended at a limit of the machine, and the next one goes on from there.
            if u64::from(leg.budget) == left {
                return Ok(self.cycles);
            }
        }
    }

    /// The next run of the machine, with no more than is left. It is handed every record that its last boundary may come to, so it
    /// ends before the first for which it has no room. That one is at least 64 cycles away, since the cycles rise: there is always
    /// room for a step.
    fn next_leg(&self, left: u64) -> Leg {
        let passed = self.schedule.partition_point(|record| record.cycle <= self.time);
        let (passed, coming) = self.schedule.split_at(passed);
        let mut reach = left.min(MOST_BUDGET);
        if let Some(without_room) = coming.get(MOST_COMING) {
            reach = reach.min(without_room.cycle - self.time - 1);
        }
        let in_force = Record { cycle: 0, line: passed.last().map_or(0, |record| record.line) };
        // What is within reach is at most MOST_BUDGET, so no number loses a bit here.
        let set_back = coming.iter().map(|record| (record.cycle - self.time, record.line));
        let within_reach = set_back.take_while(|&(cycle, _)| cycle <= reach);
        let records = within_reach.map(|(cycle, line)| Record { cycle: cycle as u32, line });
        let schedule = Packed::of(core::iter::once(in_force).chain(records));
        Leg { schedule, budget: reach as u32 }
    }

    /// Runs the machine once, from clock 0, and sets its clock back to 0.
    fn take(&mut self, leg: &Leg, memory: &mut [u8]) -> Result<(), Error> {
        let end = self.machine.run_packed(memory, &leg.schedule, leg.budget);
        let used = u64::from(self.machine.cycles());
        self.cycles += used;
        self.time += used;
        self.machine = set_back(self.machine.state());
        end
    }
}

/// The machine with this state, but for its clock, which is 0.
fn set_back(state: State) -> Machine {
    Machine::new(State { clock: 0, ..state })
}
