//! The account of power warnings, of a supply that falls, and of a sign that comes up empty.

use crate::museum::{CARRY, REHANG, SPRING};
use crate::power::{self, Tally, DEADLINE};
use crate::processor::Second;
use crate::sign::{Sign, CALM, CYCLES_A_MICROSECOND};
use crate::supply::{self, Cuts, Trial};
use crate::tiers::{DiskTier, MemoryTier, Tier};
use std::io::{self, Write};

/// After its warning the sign's supply has to hold for so many microseconds.
const HOLD_UP: u32 = 100;

/// The minute that a sign which has come up empty is told: neither of its words is 0.
const TOLD: u32 = CARRY + REHANG;

/// What was found with the memory tier, and whether it was found with the others too.
struct Found<T> {
    found: T,
    same_on_disk: bool,
    same_in_sign: bool,
}

impl<T: PartialEq> Found<T> {
    fn new(in_memory: T, on_disk: T, in_sign: T) -> Found<T> {
        let (same_on_disk, same_in_sign) = (on_disk == in_memory, in_sign == in_memory);
        Found { found: in_memory, same_on_disk, same_in_sign }
    }

    fn tell_of_others(&self, out: &mut impl Write) -> io::Result<()> {
        let numbers = |same| if same { "the same" } else { "other" };
        let (disk, sign) = (numbers(self.same_on_disk), numbers(self.same_in_sign));
        writeln!(out, "  The disk tier came to {} numbers, and the sign to {}.", disk, sign)
    }
}

/// Tries a thing with all three.
macro_rules! found {
    ($trial:ident) => {
        Found::new(
            $trial(&mut MemoryTier::new())?,
            $trial(&mut DiskTier::new()?)?,
            $trial(&mut Sign::<Second>::new())?,
        )
    };
}

pub fn tell(out: &mut impl Write) -> io::Result<()> {
    let rehang = found!(warned_rehang);
    let minute = found!(warned_minute);
    let set = found!(warned_set_time);
    let trial = found!(cut_supply);
    tell_of_warned_rehang(out, &rehang)?;
    tell_of_warned_time(out, &format!("the count of minute {}", CARRY), &minute)?;
    tell_of_warned_time(out, &format!("the setting of the time to minute {}", TOLD), &set)?;
    tell_of_cuts(out, &trial)?;
    let warned = [&rehang.found, &minute.found, &set.found].map(|tally| tally.safe_after);
    let cut = trial.found.all_cuts().map(|cuts| cuts.safe_after);
    tell_of_hold_up(out, cut.chain(warned).max().expect("there were trials"))?;
    tell_of_saves(out, &trial.found)?;
    tell_of_empty_sign(out, &trial)
}

/// Brings a tier with the spring list to the minute of the rehang, and warns it at every cycle of that.
fn warned_rehang(tier: &mut impl Tier) -> io::Result<Tally> {
    tier.with_sign(|sign| sign.rehang(&SPRING).expect(CALM))?;
    tier.with_sign(|sign| sign.catch_up(REHANG).expect(CALM))?;
    tier.with_sign(|sign| power::during_rehang(sign))
}

/// Warns a tier at every cycle of the count of a minute. The spare copy of the time has the minute before the last one.
fn warned_minute(tier: &mut impl Tier) -> io::Result<Tally> {
    tier.with_sign(|sign| sign.set_time(CARRY - 2).expect(CALM))?;
    tier.with_sign(|sign| sign.minute().expect(CALM))?;
    tier.with_sign(|sign| power::during_minute(sign, CARRY))
}

/// Warns a tier that has come up empty at every cycle in which it is told the time. The spare copy of the time has noise.
fn warned_set_time(tier: &mut impl Tier) -> io::Result<Tally> {
    tier.with_sign(|sign| power::during_set_time(&sign.clone().after_power_cut(), TOLD))
}

fn cut_supply(tier: &mut impl Tier) -> io::Result<Trial> {
    tier.with_sign(|sign| supply::trial(sign))
}

/// What a warning comes into, as the account speaks of it: the work, what of the save that changes, what this was found to be (as
/// before the work, as after it, or neither), and what was done with the power back.
struct Work<'a> {
    name: &'a str,
    saved: &'a str,
    found: [&'a str; 3],
    then: &'a str,
}

fn tell_of_warned(out: &mut impl Write, work: &Work, warned: &Found<Tally>) -> io::Result<()> {
    let tally = &warned.found;
    let [before, after, neither] = work.found;
    writeln!(
        out,
        "\nA power warning in {}, at each of its {} cycles once",
        work.name, tally.cycles
    )?;
    tell_of_entries(out, tally)?;
    writeln!(
        out,
        "  The saved {} was {} {} times, {} {} times, and {} {} times.",
        work.saved, before, tally.before, after, tally.after, neither, tally.mixed
    )?;
    writeln!(out, "  With the power back, {}.", work.then)?;
    tell_of_recovery(out, tally.recovered, tally.cycles)?;
    warned.tell_of_others(out)
}

fn tell_of_warned_rehang(out: &mut impl Write, rehang: &Found<Tally>) -> io::Result<()> {
    let found = ["the whole old one", "the whole new one", "a mixture"];
    let then = "a rehang that was not saved was done again";
    tell_of_warned(out, &Work { name: "the rehang", saved: "list", found, then }, rehang)
}

fn tell_of_warned_time(out: &mut impl Write, name: &str, time: &Found<Tally>) -> io::Result<()> {
    let found = ["the old one", "the new one", "another"];
    let then = "the sign was given what it missed";
    tell_of_warned(out, &Work { name, saved: "minute", found, then }, time)
}

fn tell_of_entries(out: &mut impl Write, tally: &Tally) -> io::Result<()> {
    writeln!(
        out,
        "  The handler was entered after at most {} cycles; {} are allowed, and it was late {} times.",
        tally.entered_after, DEADLINE, tally.late
    )?;
    writeln!(out, "  All was safe after at most {} cycles.", tally.safe_after)
}

fn times(count: u32) -> String {
    match count {
        0 => "never".to_string(),
        1 => "once".to_string(),
        _ => format!("{} times", count),
    }
}

fn tell_of_recovery(out: &mut impl Write, right: u32, tries: u32) -> io::Result<()> {
    writeln!(
        out,
        "  Then the minute and every room were right {} times, and wrong {} times.",
        right,
        tries - right
    )
}

fn tell_of_cuts(out: &mut impl Write, trial: &Found<Trial>) -> io::Result<()> {
    let Cuts { tries, newer, mixed, empty, .. } = trial.found.first;
    writeln!(out, "\nThe supply cut at every cycle from the warning on until all is safe")?;
    writeln!(out, "  Where a word is being stored, each of its two bytes may be stored alone.")?;
    writeln!(
        out,
        "  In the first save of all, {} cuts: then the list is empty {}, the whole new one {}, and a mixture {}.",
        tries,
        times(empty),
        times(newer),
        times(mixed)
    )?;
    for (name, cuts) in &trial.found.later {
        let Cuts { tries, older, newer, mixed, empty, .. } = *cuts;
        writeln!(
            out,
            "  In the {}, {} cuts: then it is the whole older one {}, the whole new one {}, a mixture {}, and empty {}.",
            name,
            tries,
            times(older),
            times(newer),
            times(mixed),
            times(empty)
        )?;
    }
    let sum = |number: fn(&Cuts) -> u32| trial.found.all_cuts().map(number).sum();
    writeln!(out, "  With the power back, the sign was given what it missed.")?;
    tell_of_recovery(out, sum(|cuts| cuts.recovered), sum(|cuts| cuts.tries))?;
    trial.tell_of_others(out)
}

fn tell_of_hold_up(out: &mut impl Write, cycles: u32) -> io::Result<()> {
    let saving = f64::from(cycles) / f64::from(CYCLES_A_MICROSECOND);
    writeln!(out, "\nHow long the supply has to hold after its warning")?;
    writeln!(
        out,
        "  All was safe after at most {} cycles; at {} MHz that is {:.1} microseconds.",
        cycles, CYCLES_A_MICROSECOND, saving
    )?;
    writeln!(
        out,
        "  The supply has to hold for {} microseconds, or {} cycles: that is a margin of {:.1} microseconds.",
        HOLD_UP,
        HOLD_UP * CYCLES_A_MICROSECOND,
        f64::from(HOLD_UP) - saving
    )
}

fn tell_of_saves(out: &mut impl Write, trial: &Trial) -> io::Result<()> {
    let row = &trial.row;
    writeln!(out, "\n{} saves one after another, each with the power gone and back", row.saves)?;
    writeln!(out, "  The sign came up with the last save {} times.", row.right)?;
    writeln!(out, "  The two blocks took turns {} times.", row.turns)
}

fn tell_of_empty_sign(out: &mut impl Write, trial: &Found<Trial>) -> io::Result<()> {
    let spoilt = &trial.found.spoilt;
    writeln!(out, "\nA save spoilt, at each of its {} bytes once", spoilt.bytes)?;
    writeln!(
        out,
        "  With the newest save spoilt, the sign came up with the one before {} times.",
        spoilt.older
    )?;
    writeln!(
        out,
        "  With both spoilt, it came up {} times with no rooms at minute 0, and called its list out of date.",
        spoilt.empty
    )?;
    writeln!(out, "  It was told the time and given a list through its mailbox.")?;
    tell_of_recovery(out, spoilt.recovered, spoilt.bytes)?;
    writeln!(out, "  It came up with its next save {} times.", spoilt.saved_again)
}
