//! Cases: a line of text in, a line of text out (docs/CASES.md).

use simple::{reset, run, step, Cpu, Outcome, Record};

/// The largest values that a case may have in these places.
const MOST_LENGTH: u32 = 0x10001;
const MOST_BYTES: u32 = 0x100;
const MOST_RECORDS: u32 = 0x41;

/// What is wrong with a malformed line does not matter.
struct Bad;

type Read<T> = Result<T, Bad>;

/// The words of a line, taken one after another.
struct Words<'a>(std::str::Split<'a, char>);

impl<'a> Words<'a> {
    fn word(&mut self) -> Read<&'a str> {
        self.0.next().ok_or(Bad)
    }

    /// A number in hexadecimal capitals without leading zeros, up to `most`.
    fn number(&mut self, most: u32) -> Read<u32> {
        let word = self.word()?;
        let is_digit = |c: u8| matches!(c, b'0'..=b'9' | b'A'..=b'F');
        if !word.bytes().all(is_digit) || word.len() > 1 && word.starts_with('0') {
            return Err(Bad);
        }
        let number = u32::from_str_radix(word, 16).map_err(|_| Bad)?;
        (number <= most).then_some(number).ok_or(Bad)
    }

    fn number8(&mut self) -> Read<u8> {
        Ok(self.number(0xFF)? as u8)
    }

    fn number16(&mut self) -> Read<u16> {
        Ok(self.number(0xFFFF)? as u16)
    }

    fn number32(&mut self) -> Read<u32> {
        self.number(u32::MAX)
    }

    fn end(&mut self) -> Read<()> {
        if self.0.next().is_none() {
            Ok(())
        } else {
            Err(Bad)
        }
    }
}

/// The answer to a line, which is given without its newline.
pub fn answer(line: &[u8]) -> String {
    let text = std::str::from_utf8(line).map_err(|_| Bad);
    match text.and_then(|text| answer_words(Words(text.split(' ')))) {
        Ok(answer) => answer,
        Err(Bad) => "bad".to_string(),
    }
}

fn answer_words(mut words: Words) -> Read<String> {
    let letter = words.word()?;
    if !matches!(letter, "s" | "r" | "z") {
        return Err(Bad);
    }
    let mut memory = read_memory(&mut words)?;
    let (cpu, outcome) = match letter {
        "s" => do_step(&mut words, &mut memory)?,
        "r" => do_run(&mut words, &mut memory)?,
        _ => do_reset(&mut words, &memory)?,
    };
    Ok(print(&cpu, outcome, &memory))
}

fn read_memory(words: &mut Words) -> Read<Vec<u8>> {
    let length = words.number(MOST_LENGTH)?;
    let mut memory = seeded(words.number32()?, length);
    for _ in 0..words.number(MOST_BYTES)? {
        let address = words.number32()? as usize;
        let place = memory.get_mut(address).ok_or(Bad)?;
        *place = words.number8()?;
    }
    Ok(memory)
}

/// The bytes that a seed fills a memory with.
fn seeded(seed: u32, length: u32) -> Vec<u8> {
    if seed == 0 {
        return vec![0; length as usize];
    }
    let mut v = seed;
    let next = |_| {
        v = v.wrapping_mul(1_103_515_245).wrapping_add(12_345) % (1 << 31);
        (v >> 16) as u8
    };
    (0..length).map(next).collect()
}

fn read_cpu(words: &mut Words) -> Read<Cpu> {
    let mut cpu = Cpu::default();
    cpu.a = words.number8()?;
    cpu.b = words.number8()?;
    cpu.x = words.number16()?;
    cpu.y = words.number16()?;
    cpu.sp = words.number16()?;
    cpu.pc = words.number16()?;
    cpu.set_ccr(words.number8()?);
    cpu.waiting = words.number(1)? == 1;
    cpu.clock = words.number32()?;
    Ok(cpu)
}

fn read_schedule(words: &mut Words) -> Read<Vec<Record>> {
    let count = words.number(MOST_RECORDS)?;
    (0..count).map(|_| Ok(Record { cycle: words.number32()?, line: words.number8()? })).collect()
}

fn do_step(words: &mut Words, memory: &mut [u8]) -> Read<(Cpu, Outcome)> {
    let mut cpu = read_cpu(words)?;
    let line = words.number8()?;
    words.end()?;
    let outcome = step(&mut cpu, memory, line);
    Ok((cpu, outcome))
}

fn do_run(words: &mut Words, memory: &mut [u8]) -> Read<(Cpu, Outcome)> {
    let mut cpu = read_cpu(words)?;
    let budget = words.number32()?;
    let schedule = read_schedule(words)?;
    words.end()?;
    let outcome = run(&mut cpu, memory, &schedule, budget);
    Ok((cpu, outcome))
}

fn do_reset(words: &mut Words, memory: &[u8]) -> Read<(Cpu, Outcome)> {
    words.end()?;
    let (cpu, reply) = reset(memory);
    Ok((cpu, Outcome { reply, cycles: 0 }))
}

fn print(cpu: &Cpu, outcome: Outcome, memory: &[u8]) -> String {
    let Cpu { a, b, x, y, sp, pc, waiting, clock, .. } = *cpu;
    let (reply, cycles, ccr) = (outcome.reply.number(), outcome.cycles, cpu.ccr());
    let (waiting, sum) = (u8::from(waiting), weighted_sum(memory));
    format!(
        "{reply:X} {cycles:X} {a:X} {b:X} {x:X} {y:X} {sp:X} {pc:X} {ccr:X} {waiting} {clock:X} {sum:X}"
    )
}

/// Each byte times its address plus one.
fn weighted_sum(memory: &[u8]) -> u64 {
    (1u64..).zip(memory).map(|(weight, &byte)| weight * u64::from(byte)).sum()
}
