//! The supply that falls while the firmware saves its list, tried at every cycle; saves one after another; and saves that are spoilt.

use crate::museum::{list_at, Told, CARRY, REHANG, ROOMS};
use crate::power::{recovers, save};
use crate::processor::Processor;
use crate::sign::{Sign, NUMBERS};
use crate::tiers::bring_up_to_date;

/// A sign that is about to be warned, what was saved before, and what is to be saved now. The saves of a sign are counted from 1 on.
struct Save<P> {
    sign: Sign<P>,
    nth: u32,
    older: Told,
    newer: Told,
}

/// The minute of a save. The first is from before the rehang and the second from after it, so that no entry of their lists is alike;
/// the time of the third differs from both in both its words. So a mixture of them is none of them.
fn minute_of(nth: u32) -> u32 {
    match nth {
        1 => REHANG - 1,
        2 => REHANG,
        later => CARRY + later,
    }
}

impl<P: Processor> Save<P> {
    /// The coming save of a sign in which this was saved before.
    fn coming(mut sign: Sign<P>, nth: u32, older: Told) -> Save<P> {
        let minute = minute_of(nth);
        bring_up_to_date(&mut sign, minute, ROOMS[0]);
        Save { sign, nth, older, newer: Told::by_book(list_at(minute), minute) }
    }

    /// The first save of a new sign.
    fn first(sign: Sign<P>) -> Save<P> {
        Save::coming(sign, 1, Told::nothing())
    }

    /// The sign once this is saved and the power is back.
    fn done(&self) -> Sign<P> {
        save(&self.sign).after_power_cut()
    }

    /// The save after this one.
    fn next(&self) -> Save<P> {
        Save::coming(self.done(), self.nth + 1, self.newer)
    }

    /// The save after this one, where this one was cut short.
    fn next_after_cut(&self, cycles: u32) -> Save<P> {
        let (cut, _) = self.sign.warned_for(cycles);
        Save::coming(cut.after_power_cut(), self.nth + 1, self.older)
    }

    /// Cuts the supply at every cycle from the warning on until all is safe. A cut leaves what the last whole step left; and where the
    /// step after it stores a word, each of its two bytes alone may have been stored.
    fn cuts(&self) -> Cuts {
        let mut cuts = Cuts::default();
        let mut last_step = None;
        loop {
            let (cut, is_safe) = self.sign.warned_for(cuts.safe_after);
            let step = Some(cut.clock());
            if step != last_step && !is_safe {
                for (at, byte) in cut.about_to_save() {
                    cuts.count(self, cut.with_saved(at, byte));
                }
            }
            last_step = step;
            cuts.count(self, cut);
            if is_safe {
                return cuts;
            }
            cuts.safe_after += 1;
        }
    }
}

/// What a sign knew once the supply had fallen in a save and was back: all that was saved before, all that was to be saved, nothing,
/// or a mixture; and how often all was right once it had been given what it missed.
#[derive(Default, PartialEq, Eq)]
pub struct Cuts {
    pub tries: u32,
    pub older: u32,
    pub newer: u32,
    pub empty: u32,
    pub mixed: u32,
    pub recovered: u32,
    /// So many cycles after the warning all was safe.
    pub safe_after: u32,
}

impl Cuts {
    fn count<P: Processor>(&mut self, save: &Save<P>, cut: Sign<P>) {
        let mut sign = cut.after_power_cut();
        let told = Told::by(&mut sign);
        let known = [save.older, save.newer, Told::nothing()];
        self.tries += 1;
        self.older += u32::from(told == save.older);
        self.newer += u32::from(told == save.newer);
        self.empty += u32::from(told == Told::nothing());
        self.mixed += u32::from(!known.contains(&told));
        self.recovered += u32::from(recovers(&mut sign, save.newer.minute));
    }
}

/// Saves one after another, each with the power gone and back: how often the sign came up with what it had saved last, and how often
/// it had written one block alone, and not the one of the save before.
#[derive(Default, PartialEq, Eq)]
pub struct Row {
    pub saves: u32,
    pub right: u32,
    pub turns: u32,
}

impl Row {
    /// Goes on until this save is the coming one.
    fn until<P: Processor>(first: Save<P>, nth: u32) -> (Row, Save<P>) {
        let (mut row, mut save, mut last) = (Row::default(), first, None);
        while save.nth < nth {
            let mut sign = save.done();
            let block = block_written(save.sign.saved(), sign.saved());
            row.saves += 1;
            row.turns += u32::from(block.is_some() && block != last);
            row.right += u32::from(Told::by(&mut sign) == save.newer);
            last = block;
            save = Save::coming(sign, save.nth + 1, save.newer);
        }
        (row, save)
    }
}

/// Which of the two blocks is not what it was, if it is one of them.
fn block_written(before: &[u8], after: &[u8]) -> Option<usize> {
    let half = before.len() / 2;
    match (before[..half] == after[..half], before[half..] == after[half..]) {
        (false, true) => Some(0),
        (true, false) => Some(1),
        _ => None,
    }
}

/// Each byte of a saved block was spoilt: in the newest block alone, and the sign came up with the save before so often; in both
/// blocks, and it came up empty so often, was right again once it had been given what it missed, and came up with its next save.
#[derive(Default, PartialEq, Eq)]
pub struct Spoilt {
    pub bytes: u32,
    pub older: u32,
    pub empty: u32,
    pub recovered: u32,
    pub saved_again: u32,
}

impl Spoilt {
    /// Spoils what is there after this save.
    fn after<P: Processor>(save: &Save<P>) -> Spoilt {
        let sign = save.done();
        let half = sign.saved().len() / 2;
        let newest = block_written(save.sign.saved(), sign.saved()).expect("one block was written");
        let mut spoilt = Spoilt::default();
        for byte in 0..half {
            let one = with_spoilt(&sign, newest * half + byte);
            let both = with_spoilt(&one, (1 - newest) * half + byte);
            let mut empty = both.after_power_cut();
            spoilt.bytes += 1;
            spoilt.older += u32::from(Told::by(&mut one.after_power_cut()) == save.older);
            spoilt.empty += u32::from(Told::by(&mut empty) == Told::nothing());
            spoilt.recovered += u32::from(recovers(&mut empty, save.newer.minute));
            let first = Save::coming(empty, save.nth + 1, Told::nothing());
            spoilt.saved_again += u32::from(Told::by(&mut first.done()) == first.newer);
        }
        spoilt
    }
}

fn with_spoilt<P: Processor>(sign: &Sign<P>, at: usize) -> Sign<P> {
    sign.with_saved(at, !sign.saved()[at])
}

/// All that was tried.
#[derive(PartialEq, Eq)]
pub struct Trial {
    /// Cuts in the first save of all, before which there is nothing to lose.
    pub first: Cuts,
    /// Cuts in later saves, each with the name of the save.
    pub later: Vec<(&'static str, Cuts)>,
    pub row: Row,
    pub spoilt: Spoilt,
}

impl Trial {
    pub fn all_cuts(&self) -> impl Iterator<Item = &Cuts> {
        std::iter::once(&self.first).chain(self.later.iter().map(|(_, cuts)| cuts))
    }
}

/// Tries the saves of a new sign.
pub fn trial<P: Processor>(sign: &Sign<P>) -> Trial {
    let first = Save::first(sign.clone());
    let second = first.next();
    let third = second.next();
    let in_first = first.cuts();
    let after_cut = third.next_after_cut(in_first.safe_after / 2);
    // The saves have the numbers 0, 1 and so on, until these go round.
    let (row, numbered_0) = Row::until(first, NUMBERS + 1);
    let later = vec![
        ("second save", second.cuts()),
        ("third save", third.cuts()),
        ("save after one that was cut short", after_cut.cuts()),
        ("save whose number is 0 again", numbered_0.cuts()),
    ];
    Trial { first: in_first, later, row, spoilt: Spoilt::after(&second) }
}
