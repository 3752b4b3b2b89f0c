//! The account of the replay.

mod accidents;

use crate::museum::{answer_by, is_open, list_at, DAY, REHANG, ROOMS};
use crate::old;
use crate::processor::Second;
use crate::sign::{Sign, CYCLES_A_MICROSECOND, CYCLES_A_MINUTE, IMAGE};
use crate::tiers::{Asked, DiskTier, MemoryTier, Tier};
use std::io::{self, Write};

/// The replay has three days.
const MINUTES: u32 = 3 * DAY;

/// Half past nine on the second day: a school party stands at the door of room 2.
const PARTY: u32 = REHANG + 30;
const PARTY_ROOM: u8 = 2;

/// The sign is asked day and night, the memory tier in every minute awake, the disk tier once in so many.
const SELDOM: u32 = 15;

/// Prints the whole account.
pub fn tell(out: &mut impl Write) -> io::Result<()> {
    writeln!(out, "A rehang, replayed over three days of {} minutes each.", DAY)?;
    writeln!(out, "At minute {} the spring list is out of date and new pictures hang.", REHANG)?;
    writeln!(out, "At minute {} a school party asks the guide for room {}.", PARTY, PARTY_ROOM)?;
    tell_of_two_clocks(out)?;
    tell_of_one_clock(out)?;
    accidents::tell(out)
}

fn tell_of_two_clocks(out: &mut impl Write) -> io::Result<()> {
    let said = old::replay(MINUTES, PARTY_ROOM);
    let party = said.iter().find(|said| said.minute == PARTY).expect("the museum is open");
    let apart = said.iter().filter(|said| said.memory != said.disk).count();
    writeln!(out, "\nThe old design, with two clocks")?;
    writeln!(
        out,
        "  The memory tier counts processor cycles, and none while the guide sleeps at night."
    )?;
    writeln!(out, "  The disk tier counts the minutes of the wall clock.")?;
    writeln!(out, "  In room {} hangs {}.", PARTY_ROOM, answer_by(list_at(PARTY), PARTY_ROOM))?;
    writeln!(out, "  The disk tier says {}, the memory tier {}.", party.disk, party.memory)?;
    writeln!(out, "  The tiers disagree in {} of the {} minutes awake.", apart, said.len())
}

fn tell_of_one_clock(out: &mut impl Write) -> io::Result<()> {
    let image = IMAGE.len();
    writeln!(out, "\nThe sign's own firmware, with one clock")?;
    writeln!(out, "  The sign and both tiers run the same image of {} bytes.", image)?;
    writeln!(out, "  In the tiers the proved machine runs it, in the sign the second emulator.")?;
    writeln!(out, "  It counts the minutes itself, and decides by them alone.")?;
    let mut guided = Guided::new()?;
    guided.replay(out)?;
    let Guided { mut sign, mut memory, disk } = guided;
    writeln!(
        out,
        "  A minute has {} cycles at {} MHz; the replay leaves most of the idle ones out.",
        CYCLES_A_MINUTE, CYCLES_A_MICROSECOND
    )?;
    tell_of_answers(out, "sign", &sign)?;
    tell_of_answers(out, "disk tier", &disk)?;
    tell_of_answers(out, "memory tier", &memory)?;
    writeln!(
        out,
        "  Answers unlike the sign's: {} from the disk tier, {} from the memory tier.",
        disk.unlike, memory.unlike
    )?;
    let strays = sign.strays()? + memory.strays()?;
    writeln!(out, "  Outside of what a tier keeps of its memory, it had changed {} bytes.", strays)
}

/// The sign on the door and the two tiers of the guide.
struct Guided {
    sign: Asked<Sign<Second>>,
    memory: Asked<MemoryTier>,
    disk: Asked<DiskTier>,
}

impl Guided {
    fn new() -> io::Result<Guided> {
        let sign = Asked::new(Sign::new())?;
        let memory = Asked::new(MemoryTier::new())?;
        let disk = Asked::new(DiskTier::new()?)?;
        Ok(Guided { sign, memory, disk })
    }

    /// Asks all three for every room, minute by minute, and tells what they say to the school party.
    fn replay(&mut self, out: &mut impl Write) -> io::Result<()> {
        for minute in 0..MINUTES {
            for room in ROOMS {
                let expected = self.sign.answer(minute, room)?;
                if is_open(minute) {
                    self.memory.compare(minute, room, expected)?;
                }
                if is_open(minute) && minute % SELDOM == 0 {
                    self.disk.compare(minute, room, expected)?;
                }
            }
            if minute == PARTY {
                write!(out, "  The sign says {}", self.sign.answer(PARTY, PARTY_ROOM)?)?;
                write!(out, ", the disk tier {}", self.disk.answer(PARTY, PARTY_ROOM)?)?;
                writeln!(out, ", the memory tier {}.", self.memory.answer(PARTY, PARTY_ROOM)?)?;
            }
        }
        Ok(())
    }
}

/// The cycles of the three are far apart, and yet their lists end in the same minute.
fn tell_of_answers<T: Tier>(out: &mut impl Write, name: &str, asked: &Asked<T>) -> io::Result<()> {
    let found = match asked.out_of_date {
        Some(minute) => format!("at minute {}", minute),
        None => "never".to_string(),
    };
    writeln!(
        out,
        "  The {} gave {} answers in {} cycles, {} of them idle, and found its list out of date {}.",
        name, asked.times, asked.cycles, asked.idle, found
    )
}
