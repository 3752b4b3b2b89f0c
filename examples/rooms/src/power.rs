//! The power warning, tried at every cycle of a piece of the firmware's work.

use crate::museum::{list_at, Told, REHANG, ROOMS, SUMMER};
use crate::processor::Processor;
use crate::sign::{Sign, Warned, CALM};
use crate::tiers::bring_up_to_date;

/// The handler has to be entered by so many cycles after the warning: that is the machine's promise.
pub const DEADLINE: u32 = 21;

/// What came of a warning at every cycle: how often the saved block was that from before the work, that from after it, or another,
/// how often all was right once the power was back, how often the handler was entered too late, and the longest times.
#[derive(Default, PartialEq, Eq)]
pub struct Tally {
    pub cycles: u32,
    pub before: u32,
    pub after: u32,
    pub mixed: u32,
    pub recovered: u32,
    pub late: u32,
    pub entered_after: u32,
    pub safe_after: u32,
}

/// Warns at every cycle of some work, which starts each time from the same sign. With the power back, the sign is given what it
/// missed up to `minute`; then it has to tell what the museum's book says.
fn at_every_cycle<P: Processor>(
    start: &Sign<P>,
    minute: u32,
    work: impl Fn(&mut Sign<P>) -> Result<(), Warned>,
) -> Tally {
    let mut finished = start.clone();
    work(&mut finished).expect(CALM);
    let (before, after) = (saved_at_rest(start), saved_at_rest(&finished));
    let mut tally = Tally::default();
    for cycle in start.clock()..finished.clock() {
        let mut sign = start.clone();
        sign.warn_at(cycle);
        let warned = work(&mut sign).expect_err("the warning was given");
        tally.cycles += 1;
        tally.before += u32::from(sign.saved() == before);
        tally.after += u32::from(sign.saved() == after);
        tally.mixed += u32::from(sign.saved() != before && sign.saved() != after);
        tally.recovered += u32::from(recovers(&mut sign.after_power_cut(), minute));
        tally.late += u32::from(warned.entered_after > DEADLINE);
        tally.entered_after = tally.entered_after.max(warned.entered_after);
        tally.safe_after = tally.safe_after.max(warned.safe_after);
    }
    tally
}

/// What a sign has saved if it is warned while it has nothing to do.
fn saved_at_rest<P: Processor>(sign: &Sign<P>) -> Vec<u8> {
    save(sign).saved().to_vec()
}

/// The sign once it has been warned, while it had nothing to do, and its list is safe.
pub fn save<P: Processor>(sign: &Sign<P>) -> Sign<P> {
    let mut sign = sign.clone();
    sign.warn_at(sign.clock());
    sign.minute().expect_err("the warning was given");
    sign
}

/// Whether a sign tells what the museum's book says, once it has been given what it missed.
pub fn recovers<P: Processor>(sign: &mut Sign<P>, minute: u32) -> bool {
    bring_up_to_date(sign, minute, ROOMS[0]);
    Told::by(sign) == Told::by_book(list_at(minute), minute)
}

/// The warning during the rehang.
pub fn during_rehang<P: Processor>(start: &Sign<P>) -> Tally {
    at_every_cycle(start, REHANG, |sign| sign.rehang(&SUMMER))
}

/// The warning while one more minute is counted, to `minute`.
pub fn during_minute<P: Processor>(start: &Sign<P>, minute: u32) -> Tally {
    at_every_cycle(start, minute, Sign::minute)
}

/// The warning while the time is set to `minute`.
pub fn during_set_time<P: Processor>(start: &Sign<P>, minute: u32) -> Tally {
    at_every_cycle(start, minute, |sign| sign.set_time(minute))
}
