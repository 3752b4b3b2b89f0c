//! The sign: its firmware image in a processor, and the questions that it understands.

use crate::mail::{self, Answer, Entry, Question};
use crate::museum::{List, DAY};
use crate::processor::{Ended, Processor, Proved, Seen};
use cpu12::{doors, Record};
use std::ops::Range;

/// The firmware, as the sign on the gallery door has it.
pub const IMAGE: &[u8; doors::MEMORY] = include_bytes!("../firmware/sign.bin");

/// The sign's bus clock, in cycles a microsecond: 8 MHz.
pub const CYCLES_A_MICROSECOND: u32 = 8;
pub const CYCLES_A_MINUTE: u32 = 60_000_000 * CYCLES_A_MICROSECOND;

/// The program's first address. Four words there say where the mailbox is, where the saved blocks begin and end, and at which
/// address the firmware stops once its list is safe. What it writes lies from the mailbox to the end of the saved blocks.
const DIRECTORY: usize = 0xC000;

/// The lines that the firmware knows, as bits of a line byte.
const XIRQ: u8 = 1;
const MINUTE: u8 = 4;
const QUESTION: u8 = 8;

/// The mask bit X of the condition codes. Once clear, only the entry of an XIRQ sets it.
const X_MASK: u8 = 0x40;

/// The number that a sign without a list gives as that of its list.
pub const NO_LIST: u8 = 0;

/// So many saves have numbers of their own; then the numbers go round.
pub const NUMBERS: u32 = 256;

/// More cycles than the firmware needs to start, to count a minute, to answer a question and to save its list.
const STARTING: u32 = 700;
const COUNTING: u32 = 80;
const ANSWERING: u32 = 160;
const SAVING: u32 = 1000;

/// The power warning came, the firmware saved its list and the machine stopped. Both numbers are cycles after the warning.
#[derive(Clone, Copy, Debug)]
pub struct Warned {
    pub entered_after: u32,
    pub safe_after: u32,
}

/// What is wrong where a warning comes that nobody gave.
pub const CALM: &str = "no warning was given";

/// A processor with the firmware in it.
#[derive(Clone)]
pub struct Sign<P> {
    processor: P,
    memory: Vec<u8>,
    warning: Option<u32>,
    counts_idle: bool,
    idle: u32,
}

/// What a tier of the guide keeps.
impl Sign<Proved> {
    /// The state record and the memory that the firmware writes.
    pub fn to_bytes(&self) -> Vec<u8> {
        let mut bytes = self.processor.record().to_vec();
        bytes.extend_from_slice(&self.memory[written()]);
        bytes
    }

    /// The sign of which a tier kept these bytes.
    pub fn of_bytes(bytes: &[u8]) -> Sign<Proved> {
        let (record, kept) = bytes.split_at(doors::STATE);
        let mut memory = IMAGE.to_vec();
        memory[written()].copy_from_slice(kept);
        let processor = Proved::of_record(record);
        Sign { processor, memory, warning: None, counts_idle: false, idle: 0 }
    }
}

impl<P: Processor> Sign<P> {
    /// A new sign, switched on.
    pub fn new() -> Sign<P> {
        Sign::switched_on(IMAGE.to_vec())
    }

    /// The sign after the power has gone and come back: the image and the saved blocks are all that is left of its memory.
    pub fn after_power_cut(mut self) -> Sign<P> {
        let clock = self.clock();
        fill_with_noise(&mut self.memory[mailbox().start..saved_blocks().start], clock);
        Sign::switched_on(self.memory)
    }

    fn switched_on(memory: Vec<u8>) -> Sign<P> {
        let processor = P::reset(&memory);
        let mut sign = Sign { processor, memory, warning: None, counts_idle: false, idle: 0 };
        sign.finish(&[], STARTING);
        sign
    }

    fn seen(&self) -> Seen {
        self.processor.seen()
    }

    /// The processor's clock, in cycles.
    pub fn clock(&self) -> u32 {
        self.seen().clock
    }

    /// From now on idle cycles are counted.
    pub fn count_idle(&mut self) {
        self.counts_idle = true;
    }

    /// In how many cycles the firmware did nothing but wait, since they are counted.
    pub fn idle(&self) -> u32 {
        self.idle
    }

    /// How many bytes are not the image's, beside those that a tier keeps.
    pub fn strays(&self) -> usize {
        let (memory, kept) = (&self.memory, written());
        (0..memory.len()).filter(|at| !kept.contains(at) && memory[*at] != IMAGE[*at]).count()
    }

    /// The bytes of both saved blocks.
    pub fn saved(&self) -> &[u8] {
        &self.memory[saved_blocks()]
    }

    /// As it is, but for one byte of the saved blocks.
    pub fn with_saved(&self, at: usize, byte: u8) -> Sign<P> {
        let mut sign = self.clone();
        sign.memory[saved_blocks()][at] = byte;
        sign
    }

    /// The power warning will come at this cycle of the processor's clock, and stay.
    pub fn warn_at(&mut self, cycle: u32) {
        self.warning = Some(cycle);
    }

    /// The sign as it is so many cycles after a power warning that comes now, or once its list is safe, and whether it is.
    pub fn warned_for(&self, cycles: u32) -> (Sign<P>, bool) {
        assert!(cycles <= SAVING, "the firmware did not save its list in time");
        let mut sign = self.clone();
        let warning = [Record { cycle: sign.clock(), line: XIRQ }];
        let is_safe = sign.processor.run(&mut sign.memory, &warning, cycles) == Ended::Stopped;
        assert!(!is_safe || sign.has_saved(), "the firmware stopped");
        (sign, is_safe)
    }

    /// What the next step stores into the saved blocks, byte by byte: the place there, and the byte.
    pub fn about_to_save(&self) -> Vec<(usize, u8)> {
        let mut next = self.clone();
        next.processor.step(&mut next.memory, XIRQ);
        let pairs = self.saved().iter().zip(next.saved()).enumerate();
        pairs.filter(|(_, (now, then))| now != then).map(|(at, (_, &then))| (at, then)).collect()
    }

    /// A minute passes.
    pub fn minute(&mut self) -> Result<(), Warned> {
        self.signal(MINUTE, COUNTING)
    }

    /// Which picture hangs in a room?
    pub fn picture(&mut self, room: u8) -> Result<Answer, Warned> {
        let entry = Entry { room, ..Entry::default() };
        Ok(match self.ask(Question::Picture, 0, 0, entry)? {
            0 => Answer::Hangs(Entry::of_bytes(&self.mail()[mail::ENTRY..])),
            1 => Answer::OutOfDate,
            2 => Answer::NoSuchRoom,
            other => panic!("the firmware answered {}", other),
        })
    }

    /// The number of the list in use, and the firmware's count of minutes.
    pub fn status(&mut self) -> Result<(u8, u32), Warned> {
        self.order(Question::Status, 0, 0, Entry::default())?;
        let mail = self.mail();
        let time = Entry::of_bytes(&mail[mail::ENTRY..]).until;
        Ok((mail[mail::SEASON], time))
    }

    /// Writes a new list, entry by entry, and then puts it in use.
    pub fn rehang(&mut self, list: &List) -> Result<(), Warned> {
        let mut slot = 0;
        for entry in list.entries {
            self.order(Question::Draft, slot, 0, entry)?;
            slot += 1;
        }
        self.order(Question::Hang, slot, list.season, Entry::default())
    }

    /// Tells the firmware the minute.
    pub fn set_time(&mut self, minute: u32) -> Result<(), Warned> {
        let entry = Entry { until: minute, ..Entry::default() };
        self.order(Question::SetTime, 0, 0, entry)
    }

    /// Lets the minutes pass that the firmware has not counted yet. One that came up empty, missed more than a day or is ahead is told
    /// the time.
    pub fn catch_up(&mut self, minute: u32) -> Result<(), Warned> {
        let (season, counted) = self.status()?;
        match minute.checked_sub(counted) {
            Some(missed) if season != NO_LIST && missed <= DAY => {
                (0..missed).try_for_each(|_| self.minute())
            }
            _ => self.set_time(minute),
        }
    }

    /// A question that the firmware has to answer with 0.
    fn order(
        &mut self,
        question: Question,
        slot: u8,
        season: u8,
        entry: Entry,
    ) -> Result<(), Warned> {
        let answer = self.ask(question, slot, season, entry)?;
        assert_eq!(answer, 0, "the firmware did not understand");
        Ok(())
    }

    /// Puts a question into the mailbox and gives the firmware's answer to it.
    fn ask(
        &mut self,
        question: Question,
        slot: u8,
        season: u8,
        entry: Entry,
    ) -> Result<u8, Warned> {
        let mail = &mut self.memory[mailbox()];
        mail[mail::REQUEST] = question as u8;
        mail[mail::SLOT] = slot;
        mail[mail::SEASON] = season;
        mail[mail::ENTRY..].copy_from_slice(&entry.to_bytes());
        self.signal(QUESTION, ANSWERING)?;
        assert_eq!(self.mail()[mail::REQUEST], 0, "the firmware did not answer");
        Ok(self.mail()[mail::ANSWER])
    }

    fn mail(&self) -> &[u8] {
        &self.memory[mailbox()]
    }

    /// Raises a line for one cycle, long enough for a firmware that waits, and gives it so many cycles, unless the warning comes.
    fn signal(&mut self, line: u8, cycles: u32) -> Result<(), Warned> {
        let now = self.clock();
        let end = now + cycles;
        match self.warning {
            Some(warning) if warning < end => return Err(self.run_into_warning(line, warning)),
            _ if self.counts_idle => self.finish_by_steps(line, end),
            _ => self.finish(&up_for_a_cycle(now, line), end),
        }
        Ok(())
    }

    /// A run in which the firmware finishes its work and waits.
    fn finish(&mut self, schedule: &[Record], end: u32) {
        let cycles = end - self.clock();
        let ended = self.processor.run(&mut self.memory, schedule, cycles);
        assert_eq!(ended, Ended::Spent, "the firmware stopped");
        assert!(self.seen().waiting, "the firmware did not finish its work in time");
    }

    /// The same run, taken apart to count its idle cycles: steps until the firmware waits, and then a run of what is left, in which
    /// it idles. A run equals its steps taken one after another.
    fn finish_by_steps(&mut self, line: u8, end: u32) {
        self.step(line);
        while !self.seen().waiting {
            self.step(0);
            assert!(self.clock() <= end, "the firmware did not finish its work in time");
        }
        self.idle += end - self.clock();
        self.finish(&[], end);
    }

    fn step(&mut self, line: u8) {
        let ended = self.processor.step(&mut self.memory, line);
        assert_eq!(ended, Ended::Spent, "the firmware stopped");
    }

    /// A run to the last step boundary before the warning, single steps until the handler is entered, and a run to where the list
    /// is safe. The other line is up in the first cycle.
    fn run_into_warning(&mut self, line: u8, warning: u32) -> Warned {
        let now = self.clock();
        self.processor.run(&mut self.memory, &up_for_a_cycle(now, line), warning - now);
        assert_eq!(self.seen().ccr & X_MASK, 0, "the firmware takes no warning");
        while self.seen().ccr & X_MASK == 0 {
            let signalled = if self.clock() == now { line } else { 0 };
            let warned = if self.clock() >= warning { XIRQ } else { 0 };
            self.step(signalled | warned);
        }
        let entered_after = self.clock() - warning;
        let stays = [Record { cycle: warning, line: XIRQ }];
        self.processor.run(&mut self.memory, &stays, SAVING);
        assert!(self.has_saved(), "the firmware did not save its list in time");
        Warned { entered_after, safe_after: self.clock() - warning }
    }

    /// Whether the firmware is where it stops once its list is safe.
    fn has_saved(&self) -> bool {
        usize::from(self.seen().pc) == word_of_directory(3)
    }
}

fn up_for_a_cycle(now: u32, line: u8) -> [Record; 2] {
    [Record { cycle: now, line }, Record { cycle: now + 1, line: 0 }]
}

/// What a memory may hold when the power comes back: bytes that follow no rule, others for each seed.
fn fill_with_noise(memory: &mut [u8], seed: u32) {
    let mut number = seed;
    for byte in memory {
        number = number.wrapping_mul(1_664_525).wrapping_add(1_013_904_223);
        *byte = number.to_be_bytes()[0];
    }
}

fn word_of_directory(index: usize) -> usize {
    let at = DIRECTORY + 2 * index;
    usize::from(u16::from_be_bytes([IMAGE[at], IMAGE[at + 1]]))
}

fn mailbox() -> Range<usize> {
    word_of_directory(0)..word_of_directory(0) + mail::LENGTH
}

fn saved_blocks() -> Range<usize> {
    word_of_directory(1)..word_of_directory(2)
}

/// The memory that the firmware writes: all that a tier has to keep beside the image.
fn written() -> Range<usize> {
    mailbox().start..saved_blocks().end
}
