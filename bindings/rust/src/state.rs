use crate::doors;
use crate::Error;

/// The places in a state record, as `docs/GUIDE-ABI.md` has them.
mod at {
    pub const A: usize = 0;
    pub const B: usize = 1;
    pub const X: usize = 2;
    pub const Y: usize = 4;
    pub const SP: usize = 6;
    pub const PC: usize = 8;
    pub const CCR: usize = 10;
    pub const WAITING: usize = 11;
    pub const CLOCK: usize = 12;
    pub const CYCLES: usize = 16;
    pub const RESERVED: usize = 20;
}

/// A state record whose tests are done: its waiting flag is 0 or 1, and its reserved bytes are 0.
pub(crate) type StateRecord = [u8; doors::STATE];

/// The machine's state, register by register. It will grow as the machine does: begin with [`State::default`], in which all is 0, or
/// with the state of a machine, and set the fields.
#[non_exhaustive]
#[derive(Clone, Copy, Debug, Default, PartialEq, Eq)]
pub struct State {
    /// Accumulator A.
    pub a: u8,
    /// Accumulator B.
    pub b: u8,
    /// Index register X.
    pub x: u16,
    /// Index register Y.
    pub y: u16,
    /// The stack pointer.
    pub sp: u16,
    /// The program counter.
    pub pc: u16,
    /// The condition codes, S X H I N Z V C from bit 7 to bit 0.
    pub ccr: u8,
    /// Whether the machine waits for a request.
    pub waiting: bool,
    /// The clock, in cycles.
    pub clock: u32,
}

fn word(record: &StateRecord, at: usize) -> u16 {
    u16::from_be_bytes([record[at], record[at + 1]])
}

fn long(record: &StateRecord, at: usize) -> u32 {
    u32::from_be_bytes([record[at], record[at + 1], record[at + 2], record[at + 3]])
}

impl State {
    /// The state record, with 0 cycles used.
    pub fn to_record(&self) -> [u8; doors::STATE] {
        let mut record = [0; doors::STATE];
        record[at::A] = self.a;
        record[at::B] = self.b;
        record[at::X..at::Y].copy_from_slice(&self.x.to_be_bytes());
        record[at::Y..at::SP].copy_from_slice(&self.y.to_be_bytes());
        record[at::SP..at::PC].copy_from_slice(&self.sp.to_be_bytes());
        record[at::PC..at::CCR].copy_from_slice(&self.pc.to_be_bytes());
        record[at::CCR] = self.ccr;
        record[at::WAITING] = u8::from(self.waiting);
        record[at::CLOCK..at::CYCLES].copy_from_slice(&self.clock.to_be_bytes());
        record
    }

    /// The state of a record that was kept. What the library would refuse is refused here too, in its order:
    /// [`Error::WrongLength`], [`Error::WrongFlag`], [`Error::WrongReserved`].
    pub fn of_record(record: &[u8]) -> Result<State, Error> {
        Ok(State::of_tested(&tested(record)?))
    }

    pub(crate) fn of_tested(record: &StateRecord) -> State {
        State {
            a: record[at::A],
            b: record[at::B],
            x: word(record, at::X),
            y: word(record, at::Y),
            sp: word(record, at::SP),
            pc: word(record, at::PC),
            ccr: record[at::CCR],
            waiting: record[at::WAITING] == 1,
            clock: long(record, at::CLOCK),
        }
    }
}

/// The record itself, where the library would take it.
pub(crate) fn tested(record: &[u8]) -> Result<StateRecord, Error> {
    let record = StateRecord::try_from(record).map_err(|_| Error::WrongLength)?;
    if record[at::WAITING] > 1 {
        return Err(Error::WrongFlag);
    }
    if record[at::RESERVED..].iter().any(|&byte| byte != 0) {
        return Err(Error::WrongReserved);
    }
    Ok(record)
}

/// The cycles that the last operation used.
pub(crate) fn cycles_used(record: &StateRecord) -> u32 {
    long(record, at::CYCLES)
}
