//! The two tiers of the guide. Each has the firmware and decides nothing itself.

use crate::mail::Answer;
use crate::museum::list_at;
use crate::processor::{Processor, Proved, Second};
use crate::sign::{Sign, CALM};
use std::fs;
use std::io;
use std::path::PathBuf;

/// Something that has a sign and can lend it out.
pub trait Tier {
    type Runs: Processor;
    fn with_sign<R>(&mut self, work: impl FnOnce(&mut Sign<Self::Runs>) -> R) -> io::Result<R>;
}

/// The sign on the gallery door has itself. The second emulator runs it, so that what the tiers answer is not held against answers of
/// the machine that gave them.
impl Tier for Sign<Second> {
    type Runs = Second;
    fn with_sign<R>(&mut self, work: impl FnOnce(&mut Sign<Second>) -> R) -> io::Result<R> {
        Ok(work(self))
    }
}

/// The tier that keeps its sign in memory.
pub struct MemoryTier {
    sign: Sign<Proved>,
}

impl MemoryTier {
    pub fn new() -> MemoryTier {
        MemoryTier { sign: Sign::new() }
    }
}

impl Tier for MemoryTier {
    type Runs = Proved;
    fn with_sign<R>(&mut self, work: impl FnOnce(&mut Sign<Proved>) -> R) -> io::Result<R> {
        Ok(work(&mut self.sign))
    }
}

/// The tier that keeps its sign in a file, in a temporary folder, and reads it back each time.
pub struct DiskTier {
    folder: PathBuf,
}

impl DiskTier {
    pub fn new() -> io::Result<DiskTier> {
        let folder = std::env::temp_dir().join(format!("rooms-{}", std::process::id()));
        fs::create_dir(&folder)?;
        let tier = DiskTier { folder };
        tier.keep(&Sign::new())?;
        Ok(tier)
    }

    /// Replaces the file as a whole, so that it is never half a sign.
    fn keep(&self, sign: &Sign<Proved>) -> io::Result<()> {
        let new = self.folder.join("sign.new");
        fs::write(&new, sign.to_bytes())?;
        fs::rename(new, self.file())
    }

    fn file(&self) -> PathBuf {
        self.folder.join("sign")
    }
}

impl Tier for DiskTier {
    type Runs = Proved;
    fn with_sign<R>(&mut self, work: impl FnOnce(&mut Sign<Proved>) -> R) -> io::Result<R> {
        let mut sign = Sign::of_bytes(&fs::read(self.file())?);
        let result = work(&mut sign);
        self.keep(&sign)?;
        Ok(result)
    }
}

impl Drop for DiskTier {
    fn drop(&mut self) {
        // A folder that cannot be removed is left to the system: the account does not depend on it.
        let _ = fs::remove_dir_all(&self.folder);
    }
}

/// What the world gives a sign that is behind: the minutes that it missed, and the museum's list where it says that its own is out of
/// date. Gives its answer for a room, and whether it was out of date.
pub fn bring_up_to_date<P: Processor>(sign: &mut Sign<P>, minute: u32, room: u8) -> (Answer, bool) {
    sign.catch_up(minute).expect(CALM);
    let first = sign.picture(room).expect(CALM);
    if first != Answer::OutOfDate {
        return (first, false);
    }
    sign.rehang(list_at(minute)).expect(CALM);
    (sign.picture(room).expect(CALM), true)
}

/// Something that has a sign, asked by visitors.
pub struct Asked<T> {
    tier: T,
    pub times: u32,
    /// The cycles that the firmware was given for its answers, and how many of them it only waited.
    pub cycles: u32,
    pub idle: u32,
    /// How many answers were not those of the sign on the door.
    pub unlike: u32,
    /// The first minute in which the firmware called its list out of date.
    pub out_of_date: Option<u32>,
}

impl<T: Tier> Asked<T> {
    /// The museum opens: the tier is given its first list.
    pub fn new(mut tier: T) -> io::Result<Asked<T>> {
        tier.with_sign(|sign| sign.rehang(list_at(0)).expect(CALM))?;
        Ok(Asked { tier, times: 0, cycles: 0, idle: 0, unlike: 0, out_of_date: None })
    }

    /// How many bytes the firmware changed that a tier does not keep.
    pub fn strays(&mut self) -> io::Result<usize> {
        self.tier.with_sign(|sign| sign.strays())
    }

    /// Asks, and compares the answer with that of the sign on the door.
    pub fn compare(&mut self, minute: u32, room: u8, expected: Answer) -> io::Result<()> {
        self.unlike += u32::from(self.answer(minute, room)? != expected);
        Ok(())
    }

    /// What it says of a room in this minute, once it is up to date.
    pub fn answer(&mut self, minute: u32, room: u8) -> io::Result<Answer> {
        let (answer, was_out_of_date, cycles, idle) = self.tier.with_sign(|sign| {
            sign.count_idle();
            let (clock, idle) = (sign.clock(), sign.idle());
            let (answer, was_out_of_date) = bring_up_to_date(sign, minute, room);
            (answer, was_out_of_date, sign.clock() - clock, sign.idle() - idle)
        })?;
        self.times += 1;
        self.cycles += cycles;
        self.idle += idle;
        if was_out_of_date {
            self.out_of_date = self.out_of_date.or(Some(minute));
        }
        Ok(answer)
    }
}
