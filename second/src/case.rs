//! Cases: one line of text in, one line of text out (docs/CASES.md).

use crate::cpu::Cpu;
use crate::machine::{reset, run_watched, step_watched, Outcome, Record, Watcher};
use std::fmt;

/// The largest memory length that a case may ask for.
pub const MOST_LENGTH: u32 = 0x10001;
/// The most bytes that may be laid over the memory.
pub const MOST_OVERLAY: u32 = 0x100;
/// The most records of a case's schedule, one more than the machine accepts.
pub const MOST_CASE_RECORDS: u32 = 0x41;

/// What a case asks the machine to do.
#[derive(Clone, Debug, PartialEq, Eq)]
pub enum Action {
    Step { cpu: Cpu, lines: u8 },
    Run { cpu: Cpu, budget: u32, schedule: Vec<Record> },
    Reset,
}

#[derive(Clone, Debug, PartialEq, Eq)]
pub struct Case {
    pub length: u32,
    pub seed: u32,
    /// Bytes laid over the memory, in order.
    pub overlay: Vec<(u32, u8)>,
    pub action: Action,
}

/// The words of a line, taken one after another.
struct Words<'a> {
    rest: std::str::Split<'a, char>,
}

impl<'a> Words<'a> {
    fn next(&mut self, place: &str) -> Result<&'a str, String> {
        self.rest.next().ok_or_else(|| format!("too few words: {} is missing", place))
    }

    fn number(&mut self, place: &str, most: u32) -> Result<u32, String> {
        let word = self.next(place)?;
        let value =
            hexadecimal(word).ok_or_else(|| format!("{} is no number: '{}'", place, word))?;
        if value > u64::from(most) {
            return Err(format!("{} does not fit its place: {}", place, word));
        }
        Ok(value as u32)
    }

    fn byte(&mut self, place: &str) -> Result<u8, String> {
        Ok(self.number(place, 0xFF)? as u8)
    }

    fn word(&mut self, place: &str) -> Result<u16, String> {
        Ok(self.number(place, 0xFFFF)? as u16)
    }

    fn end(&mut self) -> Result<(), String> {
        match self.rest.next() {
            None => Ok(()),
            Some(word) => Err(format!("too many words: '{}' is left over", word)),
        }
    }
}

/// Hexadecimal capitals without a leading zero. Nine digits already fit no place.
fn hexadecimal(word: &str) -> Option<u64> {
    let digits_are_right = word.bytes().all(|c| matches!(c, b'0'..=b'9' | b'A'..=b'F'));
    if word.is_empty() || !digits_are_right || (word.len() > 1 && word.starts_with('0')) {
        return None;
    }
    let shortened = if word.len() > 9 { &word[..9] } else { word };
    u64::from_str_radix(shortened, 16).ok()
}

impl Case {
    /// Reads a line without its newline, or says what is wrong with it.
    pub fn parse(line: &[u8]) -> Result<Case, String> {
        let text = std::str::from_utf8(line).map_err(|_| "the line is not text".to_string())?;
        let mut words = Words { rest: text.split(' ') };
        let letter = words.next("the letter")?;
        if !matches!(letter, "s" | "r" | "z") {
            return Err(format!("another letter than s, r or z: '{}'", letter));
        }
        let length = words.number("LEN", MOST_LENGTH)?;
        let seed = words.number("SEED", u32::MAX)?;
        let overlay = parse_overlay(&mut words, length)?;
        let action = match letter {
            "s" => Action::Step { cpu: parse_cpu(&mut words)?, lines: words.byte("LINE")? },
            "r" => parse_run(&mut words)?,
            _ => Action::Reset,
        };
        words.end()?;
        Ok(Case { length, seed, overlay, action })
    }
}

fn parse_overlay(words: &mut Words, length: u32) -> Result<Vec<(u32, u8)>, String> {
    let count = words.number("N", MOST_OVERLAY)?;
    let mut overlay = Vec::with_capacity(count as usize);
    for _ in 0..count {
        let address = words.number("ADDR", u32::MAX)?;
        if address >= length {
            return Err(format!("ADDR is not below LEN: {:X}", address));
        }
        overlay.push((address, words.byte("BYTE")?));
    }
    Ok(overlay)
}

fn parse_cpu(words: &mut Words) -> Result<Cpu, String> {
    Ok(Cpu {
        a: words.byte("A")?,
        b: words.byte("B")?,
        x: words.word("X")?,
        y: words.word("Y")?,
        sp: words.word("SP")?,
        pc: words.word("PC")?,
        ccr: words.byte("CCR")?,
        waiting: words.number("W", 1)? == 1,
        clock: words.number("CLOCK", u32::MAX)?,
    })
}

fn parse_run(words: &mut Words) -> Result<Action, String> {
    let cpu = parse_cpu(words)?;
    let budget = words.number("BUDGET", u32::MAX)?;
    let count = words.number("K", MOST_CASE_RECORDS)?;
    let mut schedule = Vec::with_capacity(count as usize);
    for _ in 0..count {
        let cycle = words.number("CYCLE", u32::MAX)?;
        schedule.push(Record { cycle, lines: words.byte("LINE")? });
    }
    Ok(Action::Run { cpu, budget, schedule })
}

fn write_cpu(f: &mut fmt::Formatter, cpu: &Cpu) -> fmt::Result {
    write!(f, " {:X} {:X} {:X} {:X}", cpu.a, cpu.b, cpu.x, cpu.y)?;
    write!(f, " {:X} {:X} {:X}", cpu.sp, cpu.pc, cpu.ccr)?;
    write!(f, " {} {:X}", u8::from(cpu.waiting), cpu.clock)
}

/// The line that `parse` reads back.
impl fmt::Display for Case {
    fn fmt(&self, f: &mut fmt::Formatter) -> fmt::Result {
        let letter = match self.action {
            Action::Step { .. } => 's',
            Action::Run { .. } => 'r',
            Action::Reset => 'z',
        };
        write!(f, "{} {:X} {:X} {:X}", letter, self.length, self.seed, self.overlay.len())?;
        for (address, byte) in &self.overlay {
            write!(f, " {:X} {:X}", address, byte)?;
        }
        match &self.action {
            Action::Reset => Ok(()),
            Action::Step { cpu, lines } => {
                write_cpu(f, cpu)?;
                write!(f, " {:X}", lines)
            }
            Action::Run { cpu, budget, schedule } => {
                write_cpu(f, cpu)?;
                write!(f, " {:X} {:X}", budget, schedule.len())?;
                schedule.iter().try_for_each(|r| write!(f, " {:X} {:X}", r.cycle, r.lines))
            }
        }
    }
}

/// The bytes of a seed, before anything is laid over them.
fn seeded_image(seed: u32) -> Vec<u8> {
    let length = MOST_LENGTH as usize;
    if seed == 0 {
        return vec![0; length];
    }
    let mut v = seed;
    let mut image = Vec::with_capacity(length);
    for _ in 0..length {
        v = v.wrapping_mul(1_103_515_245).wrapping_add(12_345) & 0x7FFF_FFFF;
        image.push((v >> 16) as u8);
    }
    image
}

/// How many seeds' images are kept.
const KEPT_IMAGES: usize = 32;

/// Memories for cases. The images of the latest seeds are kept, since cases that come
/// together mostly share their seeds.
#[derive(Default)]
pub struct Memories {
    images: Vec<(u32, Vec<u8>)>,
    memory: Vec<u8>,
}

impl Memories {
    fn image(&mut self, seed: u32) -> usize {
        if let Some(place) = self.images.iter().position(|image| image.0 == seed) {
            return place;
        }
        if self.images.len() == KEPT_IMAGES {
            self.images.remove(0);
        }
        self.images.push((seed, seeded_image(seed)));
        self.images.len() - 1
    }

    /// The memory that a case describes.
    pub fn lay_out(&mut self, case: &Case) -> &mut [u8] {
        let place = self.image(case.seed);
        self.memory.clear();
        self.memory.extend_from_slice(&self.images[place].1[..case.length as usize]);
        for &(address, byte) in &case.overlay {
            self.memory[address as usize] = byte;
        }
        &mut self.memory
    }
}

/// What the machine leaves after a case.
#[derive(Clone, Debug, PartialEq, Eq)]
pub struct Answer {
    pub outcome: Outcome,
    pub cpu: Cpu,
    pub sum: u64,
}

/// The sum of (address + 1) * byte. Blocks of 256 bytes keep the inner sums in 32 bits.
pub fn weighted_sum(memory: &[u8]) -> u64 {
    let mut total = 0;
    for (block, bytes) in memory.chunks(256).enumerate() {
        let plain: u32 = bytes.iter().map(|&byte| u32::from(byte)).sum();
        let weighted: u32 = (1u32..).zip(bytes).map(|(n, &byte)| n * u32::from(byte)).sum();
        total += block as u64 * 256 * u64::from(plain) + u64::from(weighted);
    }
    total
}

/// Does what a case asks.
pub fn answer(case: &Case, memories: &mut Memories) -> Answer {
    answer_watched(case, memories, &mut |_, _, _| {})
}

pub fn answer_watched(case: &Case, memories: &mut Memories, watcher: &mut Watcher) -> Answer {
    let memory = memories.lay_out(case);
    let (cpu, outcome) = match &case.action {
        Action::Reset => reset(memory),
        Action::Step { cpu, lines } => {
            let mut cpu = *cpu;
            let outcome = step_watched(&mut cpu, memory, *lines, watcher);
            (cpu, outcome)
        }
        Action::Run { cpu, budget, schedule } => {
            let mut cpu = *cpu;
            let outcome = run_watched(&mut cpu, memory, schedule, *budget, watcher);
            (cpu, outcome)
        }
    };
    Answer { outcome, cpu, sum: weighted_sum(memory) }
}

impl fmt::Display for Answer {
    fn fmt(&self, f: &mut fmt::Formatter) -> fmt::Result {
        write!(f, "{:X} {:X}", self.outcome.reply.number(), self.outcome.cycles)?;
        write_cpu(f, &self.cpu)?;
        write!(f, " {:X}", self.sum)
    }
}
