use core::fmt;

/// Every reply but 0. It will grow as the machine does.
#[non_exhaustive]
#[derive(Clone, Copy, Debug, PartialEq, Eq)]
pub enum Error {
    /// 1: the memory is not 65,536 bytes long.
    WrongMemory,
    /// 2: the schedule has over 64 records, or cycle numbers that do not strictly rise.
    WrongSchedule,
    /// 3: the clock or the budget is past its limit.
    PastLimit,
    /// 4: the opcode is one that stops the machine: `00` BGND, `01` MEM, `0A` RTC, `3C` wavr, `4A` and `4B` CALL, `18 3A` REV,
    /// `18 3B` REVW, `18 3C` WAV, `18 3E` STOP. The state is that before it.
    Stopped,
    /// 5: a postbyte of the instruction is reserved: a TFR or EXG with register code 3, a loop with kind 6 or 7 or register code 2
    /// or 3, or an indexed postbyte whose address form the instruction does not have. The state is that before it.
    ReservedPostbyte,
    /// 15: a line byte has bit 6 or 7 set, which are no [lines](crate::lines): that of a step, or that of any record of a schedule,
    /// whether it would come into force or not. It is tested after 1 and 2, and before 3.
    WrongLine,
    /// 100: the state record has another length.
    WrongLength,
    /// 101: the byte of the waiting flag is neither 0 nor 1.
    WrongFlag,
    /// 102: the schedule's bytes are not a whole number of records. Only [`doors::run`](crate::doors::run) can come to it.
    WrongPacking,
    /// 103: a reserved byte of the state record is not 0.
    WrongReserved,
    /// A number that this crate does not know, as a later library might give it.
    Unknown(u32),
}

impl Error {
    /// Those that have a name.
    const NAMED: [Error; 10] = [
        Error::WrongMemory,
        Error::WrongSchedule,
        Error::PastLimit,
        Error::Stopped,
        Error::ReservedPostbyte,
        Error::WrongLine,
        Error::WrongLength,
        Error::WrongFlag,
        Error::WrongPacking,
        Error::WrongReserved,
    ];

    /// The number of the reply.
    pub fn number(self) -> u32 {
        match self {
            Error::WrongMemory => 1,
            Error::WrongSchedule => 2,
            Error::PastLimit => 3,
            Error::Stopped => 4,
            Error::ReservedPostbyte => 5,
            Error::WrongLine => 15,
            Error::WrongLength => 100,
            Error::WrongFlag => 101,
            Error::WrongPacking => 102,
            Error::WrongReserved => 103,
            Error::Unknown(number) => number,
        }
    }

    /// The error that a reply's number stands for; 0 is none, and a number without a name is [`Error::Unknown`].
    pub fn check(number: u32) -> Result<(), Error> {
        if number == 0 {
            return Ok(());
        }
        let named = Error::NAMED.iter().find(|error| error.number() == number);
        Err(named.copied().unwrap_or(Error::Unknown(number)))
    }
}

impl fmt::Display for Error {
    fn fmt(&self, f: &mut fmt::Formatter) -> fmt::Result {
        f.write_str(match self {
            Error::WrongMemory => "the memory is not 65,536 bytes long",
            Error::WrongSchedule => {
                "the schedule has too many records, or its cycle numbers do not rise"
            }
            Error::PastLimit => "the clock or the budget is past its limit",
            Error::Stopped => "the opcode is one that stops the machine",
            Error::ReservedPostbyte => "a postbyte of the instruction is reserved",
            Error::WrongLine => "a line byte has bit 6 or 7 set, which are no lines",
            Error::WrongLength => "the state record has another length",
            Error::WrongFlag => "the byte of the waiting flag is neither 0 nor 1",
            Error::WrongPacking => "the schedule's bytes are not a whole number of records",
            Error::WrongReserved => "a reserved byte of the state record is not 0",
            Error::Unknown(number) => return write!(f, "the unknown reply {}", number),
        })
    }
}

#[cfg(feature = "std")]
impl std::error::Error for Error {}
