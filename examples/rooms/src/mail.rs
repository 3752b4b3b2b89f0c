//! What is put into the firmware's mailbox, and what is found there.

use std::fmt;

/// The questions that the firmware knows.
#[derive(Clone, Copy)]
pub enum Question {
    Picture = 1,
    Draft = 2,
    Hang = 3,
    Status = 4,
    SetTime = 5,
}

/// The places in the mailbox. Its last six bytes are an entry, as in the list; a time stands there as the entry's minute.
pub const REQUEST: usize = 0;
pub const ANSWER: usize = 1;
pub const SLOT: usize = 2;
pub const SEASON: usize = 3;
pub const ENTRY: usize = 4;
pub const LENGTH: usize = 10;

/// An entry of a list: in this room hangs this picture, up to but not including this minute.
#[derive(Clone, Copy, Default, PartialEq, Eq, Debug)]
pub struct Entry {
    pub room: u8,
    pub picture: u8,
    pub until: u32,
}

impl Entry {
    /// As in the list and in the mailbox: room, picture, and the minute with its highest byte first.
    pub fn to_bytes(self) -> [u8; 6] {
        let [a, b, c, d] = self.until.to_be_bytes();
        [self.room, self.picture, a, b, c, d]
    }

    pub fn of_bytes(bytes: &[u8]) -> Entry {
        let until = u32::from_be_bytes([bytes[2], bytes[3], bytes[4], bytes[5]]);
        Entry { room: bytes[0], picture: bytes[1], until }
    }
}

/// What the firmware says of a room.
#[derive(Clone, Copy, PartialEq, Eq, Debug)]
pub enum Answer {
    Hangs(Entry),
    OutOfDate,
    NoSuchRoom,
}

impl fmt::Display for Answer {
    fn fmt(&self, f: &mut fmt::Formatter) -> fmt::Result {
        match self {
            Answer::Hangs(entry) => write!(f, "picture {}", entry.picture),
            Answer::OutOfDate => f.write_str("out of date"),
            Answer::NoSuchRoom => f.write_str("no such room"),
        }
    }
}
