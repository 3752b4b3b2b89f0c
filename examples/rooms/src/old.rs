//! The old design: each tier decides for itself when its list is out of date, by a clock of its own.

use crate::mail::Answer;
use crate::museum::{answer_by, is_open, list_at, List, REHANG, SPRING};
use crate::sign::CYCLES_A_MINUTE;

/// The cycles that the guide's processor counts in a minute: its clock is as quick as the sign's.
const CYCLES: u64 = CYCLES_A_MINUTE as u64;

/// A tier of the old design. What `expires` counts is the tier's own business.
struct OldTier {
    list: &'static List,
    expires: u64,
}

impl OldTier {
    fn new(expires: u64) -> OldTier {
        OldTier { list: &SPRING, expires }
    }

    /// What it says of a room, where the tier's own clock shows `now`.
    fn answer(&mut self, now: u64, minute: u32, room: u8) -> Answer {
        if now >= self.expires {
            self.list = list_at(minute);
        }
        answer_by(self.list, room)
    }
}

/// What both tiers said of a room.
pub struct Said {
    pub minute: u32,
    pub memory: Answer,
    pub disk: Answer,
}

/// Asks both tiers for a room in every minute that the guide is awake. Asleep, its processor counts no cycles.
pub fn replay(minutes: u32, room: u8) -> Vec<Said> {
    let mut memory = OldTier::new(u64::from(REHANG) * CYCLES);
    let mut disk = OldTier::new(u64::from(REHANG));
    let mut cycles = 0;
    let mut all = Vec::new();
    for minute in (0..minutes).filter(|&minute| is_open(minute)) {
        let by_cycles = memory.answer(cycles, minute, room);
        let by_minutes = disk.answer(u64::from(minute), minute, room);
        all.push(Said { minute, memory: by_cycles, disk: by_minutes });
        cycles += CYCLES;
    }
    all
}
