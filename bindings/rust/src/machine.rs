use crate::schedule::Packed;
use crate::state::{cycles_used, tested, StateRecord};
use crate::{doors, Error, Record, State};

/// A machine: its registers, its waiting flag and its clock. The memory is the caller's, 65,536 bytes that are lent to each operation.
///
/// ```rust
/// use cpu12::{Error, Machine, State};
///
/// let mut memory = vec![0; 65_536];
/// memory[0x4000..0x4005].copy_from_slice(&[0x86, 0x7F, 0x8B, 0x01, 0x00]); // LDAA #$7F, ADDA #$01, BGND
/// memory[0xFFFE] = 0x40; // the reset vector: $4000
///
/// let mut machine = Machine::new(State::default());
/// assert_eq!(machine.reset(&memory), Ok(()));
/// assert_eq!(machine.step(&mut memory, 0), Ok(1));
/// assert_eq!(machine.state().a, 0x7F);
/// assert_eq!(machine.run(&mut memory, &[], 1_000), Err(Error::Stopped)); // BGND stops the machine
/// assert_eq!((machine.state().a, machine.cycles()), (0x80, 1));
/// ```
#[derive(Clone, Copy, Debug, PartialEq, Eq)]
pub struct Machine {
    record: StateRecord,
}

impl Machine {
    /// The machine with this state.
    pub fn new(state: State) -> Machine {
        Machine { record: state.to_record() }
    }

    /// The machine of which this record was kept. What the library would refuse is refused here too, in its order:
    /// [`Error::WrongLength`], [`Error::WrongFlag`], [`Error::WrongReserved`]. A record of 20 bytes, from before version 2 of the
    /// boundary, becomes one of today by 28 bytes 0 after it.
    ///
    /// ```rust
    /// use cpu12::{Error, Machine, State};
    ///
    /// let mut state = State::default();
    /// state.pc = 0x4000;
    /// let mut kept = *Machine::new(state).record();
    /// assert_eq!(Machine::of_record(&kept), Ok(Machine::new(state)));
    /// assert_eq!(Machine::of_record(&kept[..20]), Err(Error::WrongLength));
    /// kept[11] = 2;
    /// assert_eq!(Machine::of_record(&kept), Err(Error::WrongFlag));
    /// ```
    pub fn of_record(record: &[u8]) -> Result<Machine, Error> {
        Ok(Machine { record: tested(record)? })
    }

    /// The state record, as `docs/GUIDE-ABI.md` describes it: to be kept, and given to [`Machine::of_record`] later.
    pub fn record(&self) -> &[u8; doors::STATE] {
        &self.record
    }

    /// The state.
    pub fn state(&self) -> State {
        State::of_tested(&self.record)
    }

    /// The cycles that the last operation used.
    pub fn cycles(&self) -> u32 {
        cycles_used(&self.record)
    }

    /// Reset: PC is read from the reset vector `$FFFE`, S, X and I are set, all else is cleared. A memory of another length gives
    /// [`Error::WrongMemory`], and PC 0.
    pub fn reset(&mut self, memory: &[u8]) -> Result<(), Error> {
        Error::check(doors::reset(&mut self.record, memory))
    }

    /// One step under a [line byte](crate::lines), and the cycles that it used: an instruction, the entry of a request, or one idle
    /// cycle of a machine that waits. A byte with bit 6 or 7 set is [`Error::WrongLine`], and changes nothing.
    ///
    /// ```rust
    /// use cpu12::{lines, Error, Machine, State};
    ///
    /// let mut memory = vec![0xA7; 65_536]; // NOP
    /// let mut machine = Machine::new(State::default());
    /// assert_eq!(machine.step(&mut memory, 0x40), Err(Error::WrongLine));
    /// assert_eq!(machine, Machine::new(State::default()));
    /// assert_eq!(machine.step(&mut memory, 0x40 & lines::ALL), Ok(1));
    /// ```
    pub fn step(&mut self, memory: &mut [u8], line: u8) -> Result<u32, Error> {
        Error::check(doors::step(&mut self.record, memory, line))?;
        Ok(self.cycles())
    }

    /// Steps until the next one costs more than is left of the budget, and the cycles that they used. A machine that stops before that
    /// gives [`Error::Stopped`] or [`Error::ReservedPostbyte`]; then [`Machine::cycles`] has the cycles used. The budget may be
    /// 100,000,000 and the clock come to 4,000,000,000: [`Replay`](crate::Replay) goes beyond both. A record whose line byte has bit 6 or
    /// 7 set is [`Error::WrongLine`], wherever it stands.
    pub fn run(
        &mut self,
        memory: &mut [u8],
        schedule: &[Record],
        budget: u32,
    ) -> Result<u32, Error> {
        self.run_packed(memory, &Packed::of(schedule.iter().copied()), budget)?;
        Ok(self.cycles())
    }

    pub(crate) fn run_packed(
        &mut self,
        memory: &mut [u8],
        schedule: &Packed,
        budget: u32,
    ) -> Result<(), Error> {
        Error::check(doors::run(&mut self.record, memory, schedule.bytes(), budget))
    }
}
