use crate::doors;

/// A record of a schedule: from this cycle on, this line byte. In a schedule the cycles strictly rise.
#[derive(Clone, Copy, Debug, PartialEq, Eq)]
pub struct Record {
    /// The cycle number.
    pub cycle: u32,
    /// The line byte: see [`lines`](crate::lines).
    pub line: u8,
}

impl Record {
    /// The packed record.
    pub fn to_bytes(self) -> [u8; doors::RECORD] {
        let [highest, high, low, lowest] = self.cycle.to_be_bytes();
        [highest, high, low, lowest, self.line]
    }
}

/// One record more than the machine accepts, so that the library itself refuses a longer schedule, in the order of its own tests.
const ROOM: usize = doors::RECORDS + 1;

/// A packed schedule on the stack.
pub(crate) struct Packed {
    bytes: [u8; ROOM * doors::RECORD],
    length: usize,
}

impl Packed {
    /// These records, or of too many as many as are refused.
    pub(crate) fn of(records: impl Iterator<Item = Record>) -> Packed {
        let mut packed = Packed { bytes: [0; ROOM * doors::RECORD], length: 0 };
        for (place, record) in packed.bytes.chunks_exact_mut(doors::RECORD).zip(records) {
            place.copy_from_slice(&record.to_bytes());
            packed.length += doors::RECORD;
        }
        packed
    }

    pub(crate) fn bytes(&self) -> &[u8] {
        &self.bytes[..self.length]
    }
}
