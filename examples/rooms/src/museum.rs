//! What hangs where, by the museum's own book.

use crate::mail::{Answer, Entry};
use crate::processor::Processor;
use crate::sign::{Sign, CALM, NO_LIST};

/// The minutes of a day.
pub const DAY: u32 = 1440;

/// The minute of the rehang. Minute 0 is nine o'clock in the morning, and so is this one, a day later.
pub const REHANG: u32 = DAY;

/// Counting to this minute carries into the high word of the time.
pub const CARRY: u32 = 65_536;

/// A list of rooms. Each season has its number.
pub struct List {
    pub season: u8,
    pub entries: [Entry; 3],
}

/// What hangs until the rehang.
pub const SPRING: List = List { season: 1, entries: hung([11, 12, 13], REHANG) };

/// What hangs after it, for 90 days.
pub const SUMMER: List = List { season: 2, entries: hung([21, 22, 23], REHANG + 90 * DAY) };

/// Rooms to ask for: those of the lists, and one that no list has.
pub const ROOMS: [u8; 4] = [1, 2, 3, 4];

const fn hung(pictures: [u8; 3], until: u32) -> [Entry; 3] {
    [
        Entry { room: 1, picture: pictures[0], until },
        Entry { room: 2, picture: pictures[1], until },
        Entry { room: 3, picture: pictures[2], until },
    ]
}

/// The list that is right in this minute.
pub fn list_at(minute: u32) -> &'static List {
    if minute < REHANG {
        &SPRING
    } else {
        &SUMMER
    }
}

/// What a list says of a room.
pub fn answer_by(list: &List, room: u8) -> Answer {
    let found = list.entries.iter().find(|entry| entry.room == room);
    found.map_or(Answer::NoSuchRoom, |&entry| Answer::Hangs(entry))
}

/// All that can be learnt from a sign: the number of its list, its minute, and what it says of each room.
#[derive(Clone, Copy, PartialEq, Eq)]
pub struct Told {
    pub season: u8,
    pub minute: u32,
    pub answers: [Answer; ROOMS.len()],
}

impl Told {
    /// What this sign tells.
    pub fn by<P: Processor>(sign: &mut Sign<P>) -> Told {
        let (season, minute) = sign.status().expect(CALM);
        let answers = ROOMS.map(|room| sign.picture(room).expect(CALM));
        Told { season, minute, answers }
    }

    /// What a sign has to tell that knows this list, which is in date, and this minute.
    pub fn by_book(list: &List, minute: u32) -> Told {
        let answers = ROOMS.map(|room| answer_by(list, room));
        Told { season: list.season, minute, answers }
    }

    /// What a sign has to tell that has come up empty.
    pub fn nothing() -> Told {
        Told { season: NO_LIST, minute: 0, answers: [Answer::OutOfDate; ROOMS.len()] }
    }
}

/// Whether the museum is open, and the guides awake: nine hours of each day.
pub fn is_open(minute: u32) -> bool {
    minute % DAY < 540
}
