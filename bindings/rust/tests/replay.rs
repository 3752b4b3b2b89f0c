//! `Replay`, which splits the time into runs, beside the second emulator, which goes step by step in one piece with a clock of 64 bits.
//!
//! A program with its own `main`, as tests/boundary.rs is. REPLAY_CASES and BOUNDARY_SEED give the number of random cases and their
//! seed.
#![no_main]

mod common;

use common::{asked, number, state_of};
use cpu12::{doors, lines, Error, LongRecord, Machine, Replay, State};
use second::boundary::{next, Next};
use second::cpu::Cpu;
use second::random::Random;
use std::os::raw::{c_char, c_int};

/// Where the program begins, and where the handlers do.
const PROGRAM: usize = 0x4000;
const HANDLERS: usize = 0x5000;

/// The vectors of the traps, of SWI, and of bits 0 to 5 of the line byte, each two bytes below the one before it.
const FIRST_VECTOR: usize = 0xFFF8;
const VECTORS: usize = 2 + lines::VECTORS.len();

/// The second emulator with a clock of 64 bits: its own is held at 0.
struct OnePiece<'s> {
    cpu: Cpu,
    time: u64,
    schedule: &'s [LongRecord],
}

impl OnePiece<'_> {
    /// The reply and the cycles of a run.
    fn run(&mut self, memory: &mut [u8], budget: u64) -> (u32, u64) {
        let mut cycles = 0;
        let mut line = 0;
        let mut coming = self.schedule.iter().peekable();
        loop {
            while let Some(record) = coming.next_if(|record| record.cycle <= self.time) {
                line = record.line;
            }
            match next(&self.cpu, memory, line) {
                Next::Stops => return (4, cycles),
                Next::Reserved => return (5, cycles),
                Next::Do(effect) if u64::from(effect.cost) > budget - cycles => return (0, cycles),
                Next::Do(effect) => {
                    self.cpu = Cpu { clock: 0, ..effect.cpu };
                    effect.writes.apply(memory);
                    cycles += u64::from(effect.cost);
                    self.time += u64::from(effect.cost);
                }
            }
        }
    }
}

/// A replay and its counterpart, which have to stay alike.
struct Pair<'s> {
    replay: Replay<'s>,
    one_piece: OnePiece<'s>,
    memory: Vec<u8>,
    memory_of_one_piece: Vec<u8>,
}

impl<'s> Pair<'s> {
    fn new(memory: Vec<u8>, cpu: Cpu, time: u64, schedule: &'s [LongRecord]) -> Pair<'s> {
        Pair {
            replay: Replay::new(state_of(&cpu), time, schedule).expect("the cycles rise"),
            one_piece: OnePiece { cpu: Cpu { clock: 0, ..cpu }, time, schedule },
            memory_of_one_piece: memory.clone(),
            memory,
        }
    }

    /// Runs both, and gives the reply.
    fn run(&mut self, budget: u64, what: &dyn Fn() -> String) -> u32 {
        let reply = number(self.replay.run(&mut self.memory, budget));
        let found = (reply, self.replay.cycles(), self.replay.time(), self.replay.state());
        let (reply, cycles) = self.one_piece.run(&mut self.memory_of_one_piece, budget);
        let expected = (reply, cycles, self.one_piece.time, state_of(&self.one_piece.cpu));
        assert_eq!(found, expected, "budget {}, {}", budget, what());
        assert!(self.memory == self.memory_of_one_piece, "memory, budget {}, {}", budget, what());
        reply
    }
}

/// A memory with a program, a handler for each vector, and a machine before the program.
fn image(program: &[u8], handlers: &[Vec<u8>; VECTORS]) -> (Vec<u8>, Cpu) {
    let mut memory = vec![0; doors::MEMORY];
    memory[PROGRAM..PROGRAM + program.len()].copy_from_slice(program);
    for (index, handler) in handlers.iter().enumerate() {
        let at = HANDLERS + 0x80 * index;
        memory[at..at + handler.len()].copy_from_slice(handler);
        let vector = FIRST_VECTOR - 2 * index;
        memory[vector..vector + 2].copy_from_slice(&(at as u16).to_be_bytes());
    }
    let cpu = Cpu { sp: 0x2000, ..Cpu::after_reset(PROGRAM as u16) };
    (memory, cpu)
}

/// Handlers that only count and return.
fn counting_handlers() -> [Vec<u8>; VECTORS] {
    std::array::from_fn(|index| vec![0x72, 0x11, index as u8, 0x0B])
}

/// Pieces of code that leave the stack as it was: of every cost, with waits, traps and masks that open and close.
const PIECES: &[&[u8]] = &[
    &[0xA7],                   // NOP
    &[0x08],                   // INX
    &[0x72, 0x10, 0x00],       // INC  $1000
    &[0x18, 0x12, 0x18, 0x00], // EMACS $1800
    &[0x3E],                   // WAI
    &[0x3F],                   // SWI
    &[0x18, 0x30],             // TRAP $30
    &[0x10, 0xAF],             // ANDCC #$AF
    &[0x14, 0x10],             // ORCC #$10
    &[0x36, 0x42, 0x32],       // PSHA, INCA, PULA
    &[0x13],                   // EMUL
    &[0x8B, 0x05],             // ADDA #5
];

/// A loop of some pieces. Some of them come to a stop or to a reserved postbyte once in 256 times.
fn random_program(random: &mut Random) -> Vec<u8> {
    let open = random.pick(&[0xAF, 0xAF, 0xEF, 0xBF]);
    let mut code = vec![0x10, open]; // ANDCC
    for _ in 0..random.between(1, 14) {
        code.extend_from_slice(random.pick(PIECES));
    }
    if random.chance(40) {
        code.extend(an_end_after_many(random));
    }
    let back = -(code.len() as i8 + 2);
    code.extend([0x20, back as u8]); // BRA
    code
}

/// INC $10xx, BNE past what ends the run: reply 4 or 5.
fn an_end_after_many(random: &mut Random) -> Vec<u8> {
    let mut code = vec![0x72, 0x10, random.byte() & 0x7F, 0x26];
    let end: &[u8] = random.pick(&[&[0x00], &[0x18, 0x3E], &[0xB7, 0x35]]);
    code.push(end.len() as u8);
    code.extend_from_slice(end);
    code
}

/// Most handlers return, and of these some with the mask I set in the frame, so that the program goes on under a line that stays up.
fn random_handler(random: &mut Random) -> Vec<u8> {
    let mut code = vec![0x72, 0x11, random.byte()]; // INC $11xx
    for _ in 0..random.below(3) {
        code.extend_from_slice(random.pick(PIECES));
    }
    if random.chance(30) {
        code.extend(an_end_after_many(random));
    }
    if random.chance(50) {
        code.extend([0x0C, 0x80, random.pick(&[0x10, 0x50])]); // BSET 0,SP
    }
    code.push(0x0B); // RTI
    code
}

/// A schedule whose records come thick, far apart, or in bursts, some of them before the start.
fn random_schedule(random: &mut Random, start: u64) -> Vec<LongRecord> {
    let (near, far) = random.pick(&[(1, 1), (1, 3), (1, 40), (1, 900), (300, 3_000), (1, 20_000)]);
    let bursts = random.chance(30);
    let mut cycle = start.saturating_sub(u64::from(random.below(400)));
    let mut records = Vec::new();
    for index in 0..random.between(0, 2_500) {
        let line = match random.below(6) {
            0 | 1 => 0,
            2 => lines::XIRQ,
            3 => lines::IRQ,
            4 => random.pick(&lines::DEVICES),
            _ => random.byte() & lines::ALL,
        };
        records.push(LongRecord { cycle, line });
        let quick = bursts && index % 150 != 0;
        cycle += u64::from(if quick { random.between(1, 2) } else { random.between(near, far) });
    }
    records
}

/// Where the clock begins: near 0, where a machine's clock ends, where 32 bits end, and far beyond.
fn random_start(random: &mut Random) -> u64 {
    let about = random.pick(&[0, 3_999_990_000, 4_000_000_000, u64::from(u32::MAX), 1 << 40]);
    about + u64::from(random.below(20_000))
}

fn random_budget(random: &mut Random) -> u64 {
    let most = random.pick(&[1, 13, 14, 70, 200, 5_000, 40_000]);
    u64::from(random.between(0, most))
}

/// How often each reply came.
type Met = [u32; 6];

fn random_case(seed: u64, met: &mut Met) {
    let mut random = Random::new(seed);
    let program = random_program(&mut random);
    let handlers = std::array::from_fn(|_| random_handler(&mut random));
    let (memory, mut cpu) = image(&program, &handlers);
    cpu.x = random.word();
    cpu.y = random.word();
    let start = random_start(&mut random);
    let schedule = random_schedule(&mut random, start);
    let mut pair = Pair::new(memory, cpu, start, &schedule);
    let mut room = 60_000;
    while room > 0 {
        let budget = random_budget(&mut random);
        let reply = pair.run(budget, &|| format!("the case of seed {}", seed));
        met[reply as usize] += 1;
        if reply != 0 {
            return;
        }
        room -= budget.max(1).min(room);
    }
}

/// A stop that stands just where a request comes in, at every distance near the records that one run can be handed. The request is
/// entered, or with nothing left to spend it gives reply 0; a run that did not know of it would stop.
fn a_request_at_a_stop() {
    for distance in 1..200 {
        let mut program = vec![0x10, 0xAF]; // ANDCC #$AF
        program.extend(vec![0xA7; distance - 1]); // NOP
        program.push(0x00); // BGND
        let (memory, cpu) = image(&program, &counting_handlers());
        for last in [distance, distance + 1, 300] {
            let line = |cycle| if cycle >= distance { lines::XIRQ } else { 0 };
            let record = |cycle| LongRecord { cycle: cycle as u64, line: line(cycle) };
            let schedule: Vec<LongRecord> = (1..=last).map(record).collect();
            for budget in [distance as u64, 1_000] {
                let mut pair = Pair::new(memory.clone(), cpu, 0, &schedule);
                let what = || format!("a stop at {} of {}", distance, last);
                assert_eq!(pair.run(budget, &what), 0);
            }
        }
    }
}

/// A run longer than the machine's largest budget, with records on both sides of it. Before the first of them one run of the machine
/// stands in for the second emulator, which would take long.
fn beyond_one_budget() {
    let (mut memory, cpu) = image(&loop_of_emacs(), &counting_handlers());
    let start = 3_999_999_990;
    let record = |n: u64| LongRecord { cycle: start + 99_999_700 + 7 * n, line: (n % 5) as u8 };
    let schedule: Vec<LongRecord> = (0..90).map(record).collect();
    let budget = 100_000_500;

    let mut replay = Replay::new(state_of(&cpu), start, &schedule).expect("the cycles rise");
    let mut replayed = memory.clone();
    let reply = number(replay.run(&mut replayed, budget));

    let mut machine = Machine::new(state_of(&cpu));
    let first = u64::from(machine.run(&mut memory, &[], 99_999_000).expect("it does not stop"));
    let time = start + first;
    let mut one_piece = OnePiece { cpu: cpu_of(&machine.state()), time, schedule: &schedule };
    let (expected, rest) = one_piece.run(&mut memory, budget - first);
    assert_eq!((reply, replay.cycles(), replay.time()), (expected, first + rest, one_piece.time));
    assert_eq!(replay.state(), state_of(&one_piece.cpu));
    assert!(replayed == memory, "the memories differ after a long run");
    assert!(
        memory[0x1100..0x1100 + VECTORS].iter().any(|&count| count > 0),
        "no request was entered"
    );
}

/// A state, as the second emulator has it, with the clock at 0.
fn cpu_of(state: &State) -> Cpu {
    Cpu {
        a: state.a,
        b: state.b,
        x: state.x,
        y: state.y,
        sp: state.sp,
        pc: state.pc,
        ccr: state.ccr,
        waiting: state.waiting,
        clock: 0,
    }
}

/// ANDCC #$AF, EMACS $1800 twenty times, BRA to the ANDCC: the fewest steps for its cycles.
fn loop_of_emacs() -> Vec<u8> {
    let mut program = vec![0x10, 0xAF];
    program.extend([0x18, 0x12, 0x18, 0x00].iter().cycle().take(4 * 20));
    program.extend([0x20, 0xAC]);
    program
}

/// The end of 64 bits, and the order of the refusals.
fn refusals() {
    let (memory, cpu) = image(&[0x20, 0xFE], &counting_handlers()); // BRA to itself
    let end = LongRecord { cycle: u64::MAX, line: lines::XIRQ };
    let mut pair = Pair::new(memory, cpu, u64::MAX - 1_000, std::slice::from_ref(&end));
    assert_eq!(pair.run(998, &|| "near the end of time".to_string()), 0);
    let before = pair.replay.state();
    assert_eq!(pair.replay.run(&mut pair.memory, 5), Err(Error::PastLimit));
    assert_eq!(pair.replay.run(&mut [], 5), Err(Error::WrongMemory));
    assert_eq!((pair.replay.cycles(), pair.replay.state()), (0, before));
    assert_eq!(pair.run(4, &|| "to the end of time".to_string()), 0);
    for (first, second) in [(5, 5), (5, 4), (u64::MAX, 0)] {
        let records = [first, second].map(|cycle| LongRecord { cycle, line: 0 });
        let refused = Replay::new(State::default(), 0, &records).map(|replay| replay.time());
        assert_eq!(refused, Err(Error::WrongSchedule));
    }
}

/// A line byte with bit 6 or 7, in every place of a schedule that is longer than a run's, before the time and far after it. That the
/// cycles rise is asked first.
fn wrong_lines() {
    let refusal = |records: &[LongRecord], time| {
        Replay::new(State::default(), time, records).map(|replay| replay.time())
    };
    for line in [0x40, 0x80, 0xC0, 0xFF] {
        for place in 0..200 {
            let line_of = |n| if n == place { line } else { lines::ALL };
            let record = |n: u64| LongRecord { cycle: 1_000 * n, line: line_of(n) };
            let mut records: Vec<LongRecord> = (0..200).map(record).collect();
            for time in [0, 100_000, u64::MAX] {
                assert_eq!(refusal(&records, time), Err(Error::WrongLine));
            }
            records[199].cycle = 0;
            assert_eq!(refusal(&records, 0), Err(Error::WrongSchedule));
        }
    }
    for line in 0..=lines::ALL {
        assert_eq!(refusal(&[LongRecord { cycle: 5, line }], 7), Ok(7));
    }
}

/// The program.
#[no_mangle]
pub extern "C" fn main(_count: c_int, _words: *const *const c_char) -> c_int {
    let (count, seed) = (asked("REPLAY_CASES", 400), asked("BOUNDARY_SEED", 1));
    refusals();
    wrong_lines();
    a_request_at_a_stop();
    beyond_one_budget();
    let mut met = Met::default();
    for case in 0..count {
        random_case(seed.wrapping_mul(1_000_003).wrapping_add(case), &mut met);
    }
    assert!(count < 100 || [0, 4, 5].iter().all(|&reply| met[reply] > 0), "replies: {:?}", met);
    println!("Rust: {} random replays, seed {}, replies {:?}", count, seed, met);
    0
}
