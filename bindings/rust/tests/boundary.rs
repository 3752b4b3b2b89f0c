//! The machine through the C boundary: every reply, every wrong length, and random cases beside the second emulator.
//!
//! A program with its own `main`, which tools/boundary compiles by rustc alone. It ends with status 0 and one line, or panics.
//! BOUNDARY_CASES and BOUNDARY_SEED give the number of random cases and their seed.
#![no_main]

mod common;

use common::{asked, number, state_of};
use cpu12::{doors, lines, Error, Machine, Record, State};
use second::case::{Action, Case, Memories};
use second::generate::{Generator, Kind};
use second::machine;
use std::os::raw::{c_char, c_int};

/// LDAA #$7F, and NOP: a run with a budget of 1 ends before the NOP.
const LDAA: [u8; 3] = [0x86, 0x7F, 0xA7];

/// A state with this program counter and these condition codes, and else 0.
fn state_at(pc: u16, ccr: u8) -> State {
    let mut state = State::default();
    state.pc = pc;
    state.ccr = ccr;
    state
}

/// A machine at $4000 with this code there, and the memory.
fn at_4000(code: &[u8]) -> (Machine, Vec<u8>) {
    let mut memory = vec![0; doors::MEMORY];
    memory[0x4000..0x4000 + code.len()].copy_from_slice(code);
    memory[0xFFFE] = 0x40;
    let mut machine = Machine::new(State::default());
    assert_eq!(machine.reset(&memory), Ok(()));
    assert_eq!(machine.state(), state_at(0x4000, 0xD0));
    (machine, memory)
}

fn replies_of_the_machine() {
    let (mut machine, mut memory) = at_4000(&LDAA);
    assert_eq!(machine.step(&mut memory, 0), Ok(1));
    assert_eq!((machine.state().a, machine.state().clock), (0x7F, 1));

    let (mut machine, mut memory) = at_4000(&[0x86, 0x7F, 0x8B, 0x01, 0x00]);
    assert_eq!(machine.run(&mut memory, &[], 1), Ok(1));
    assert_eq!(machine.run(&mut memory, &[], 1_000_000), Err(Error::Stopped));
    assert_eq!((machine.cycles(), machine.state().a), (1, 0x80));

    // B7 35 is a transfer with register code 3
    let (mut machine, mut memory) = at_4000(&[0xB7, 0x35]);
    assert_eq!(machine.step(&mut memory, 0), Err(Error::ReservedPostbyte));
    assert_eq!(machine.run(&mut memory, &[], 0), Err(Error::ReservedPostbyte));

    let (mut machine, mut memory) = at_4000(&LDAA);
    assert_eq!(machine.run(&mut memory, &[], 100_000_001), Err(Error::PastLimit));
    let mut late = machine.state();
    late.clock = 3_999_999_901;
    let late = Machine::new(late);
    assert_eq!({ late }.step(&mut memory, 0), Err(Error::PastLimit));
    assert_eq!({ late }.run(&mut memory, &[], 100), Err(Error::PastLimit));
}

fn schedules() {
    let rising = |count: u32| -> Vec<Record> {
        (0..count).map(|i| Record { cycle: i * 0x0101_0101 / 4, line: 0 }).collect()
    };
    let (machine, mut memory) = at_4000(&LDAA);
    for count in 0..70 {
        let found = { machine }.run(&mut memory, &rising(count), 1);
        assert_eq!(found, if count <= 64 { Ok(1) } else { Err(Error::WrongSchedule) });
    }
    let again = [Record { cycle: 5, line: 1 }, Record { cycle: 5, line: 2 }];
    assert_eq!({ machine }.run(&mut memory, &again, 1), Err(Error::WrongSchedule));
    // The second byte of a cycle number counts for 65,536.
    let falling = [Record { cycle: 0x0001_0000, line: 0 }, Record { cycle: 0x0000_FFFF, line: 0 }];
    assert_eq!({ machine }.run(&mut memory, &falling, 1), Err(Error::WrongSchedule));
}

/// The doors' numbers on these bytes. Where all of them refuse, nothing may have changed, but that a reset with a memory of
/// another length gives PC 0.
fn numbers(state: &[u8], memory: &[u8], schedule: &[u8]) -> (u32, u32, u32) {
    let (mut s, mut m) = (state.to_vec(), memory.to_vec());
    let stepped = doors::step(&mut s, &mut m, 0);
    if stepped != 0 {
        assert!(s == state && m == memory, "a refused step changed something");
    }
    let (mut s, mut m) = (state.to_vec(), memory.to_vec());
    let ran = doors::run(&mut s, &mut m, schedule, 1);
    if ran != 0 {
        assert!(s == state && m == memory, "a refused run changed something");
    }
    let mut s = state.to_vec();
    let reset = doors::reset(&mut s, memory);
    if reset == Error::WrongLength.number() {
        assert!(s == state, "a refused reset changed something");
    }
    (reset, stepped, ran)
}

/// The bytes of a state record that mean something, and the place of the waiting flag among them.
const MEANT: usize = 20;
const WAITING: usize = 11;

fn refused_records() {
    let (machine, memory) = at_4000(&LDAA);
    let record = machine.record();
    for length in 0..=2 * doors::STATE {
        let mut state = record.to_vec();
        state.resize(length, 0);
        let expected = if length == doors::STATE { 0 } else { 100 };
        assert_eq!(numbers(&state, &memory, &[]), (expected, expected, expected));
        assert_eq!(number(Machine::of_record(&state)), expected);
        // The door's own refusal comes before the machine's.
        let expected = if length == doors::STATE { 1 } else { 100 };
        assert_eq!(numbers(&state, &[], &[1; 5]), (expected, expected, expected));
    }
    for flag in 0..=255 {
        let mut state = *record;
        state[WAITING] = flag;
        let expected = if flag <= 1 { 0 } else { 101 };
        assert_eq!(numbers(&state, &memory, &[]), (0, expected, expected));
        assert_eq!(number(State::of_record(&state)), expected);
        // The waiting flag comes before the reserved bytes, and these before the packing of the schedule and the memory.
        state[doors::STATE - 1] = 1;
        let expected = if flag <= 1 { 103 } else { 101 };
        assert_eq!(numbers(&state, &[], &[1; 4]), (1, expected, expected));
        assert_eq!(number(State::of_record(&state)), expected);
    }
    for place in MEANT..doors::STATE {
        for byte in [0x01, 0x80, 0xFF] {
            let mut state = *record;
            state[place] = byte;
            assert_eq!(numbers(&state, &memory, &[]), (0, 103, 103));
            assert_eq!(number(Machine::of_record(&state)), 103);
        }
    }
}

fn refused_schedules() {
    let (machine, memory) = at_4000(&LDAA);
    let packed: Vec<u8> = (0..70).flat_map(|i| [0, 0, 0, i, 0]).collect();
    for length in 0..=packed.len() {
        let expected = if length % 5 != 0 { 102 } else { u32::from(length > 320) * 2 };
        assert_eq!(numbers(machine.record(), &memory, &packed[..length]), (0, 0, expected));
        let expected = if length % 5 != 0 { 102 } else { 1 };
        assert_eq!(numbers(machine.record(), &[], &packed[..length]), (1, 1, expected));
    }
}

/// A record is read back as it was, with the cycles used.
fn kept_records() {
    let (mut machine, mut memory) = at_4000(&LDAA);
    assert_eq!(machine.run(&mut memory, &[], 1), Ok(1));
    assert_eq!(Machine::of_record(machine.record()), Ok(machine));
    assert_eq!(State::of_record(machine.record()), Ok(machine.state()));
    let bytes: [u8; doors::STATE] = std::array::from_fn(|i| match i {
        WAITING => 1,
        _ if i < MEANT => i as u8 + 1,
        _ => 0,
    });
    let kept = Machine::of_record(&bytes).expect("the record is right");
    assert_eq!((kept.record(), kept.cycles()), (&bytes, 0x1112_1314));
    let mut without_cycles = bytes;
    without_cycles[16..MEANT].fill(0);
    assert_eq!(kept.state().to_record(), without_cycles);
}

/// Every number is an error that has this number, whether it has a name or not.
fn unknown_numbers() {
    assert_eq!(Error::check(0), Ok(()));
    for number in (1..2_000).chain([u32::MAX]) {
        let error = Error::check(number).expect_err("it is not 0");
        assert_eq!(error.number(), number);
        let named = matches!(number, 1..=5 | 15 | 100..=103);
        assert_eq!(error == Error::Unknown(number), !named);
        assert!(!error.to_string().is_empty());
    }
}

/// Each line is entered by its vector, before those of higher bits, and held back by its mask alone.
fn request_lines() {
    for (bit, &vector) in lines::VECTORS.iter().enumerate() {
        let xirq = 1 << bit == lines::XIRQ;
        let (_, mut memory) = at_4000(&[0xA7]);
        memory[usize::from(vector)..][..2].copy_from_slice(&[0x56, 0x78]);
        let mut machine = Machine::new(state_at(0x4000, 0));
        assert_eq!(machine.step(&mut memory, lines::ALL & 0xFF << bit), Ok(9));
        assert_eq!(
            (machine.state().pc, machine.state().ccr),
            (0x5678, if xirq { 0x50 } else { 0x10 })
        );
        let (masked, open) = if xirq { (0x40, 0x10) } else { (0x10, 0x40) };
        let mut machine = Machine::new(state_at(0x4000, masked));
        assert_eq!(machine.step(&mut memory, 1 << bit), Ok(1));
        let mut machine = Machine::new(state_at(0x4000, open));
        assert_eq!(machine.step(&mut memory, 1 << bit), Ok(9));
    }
    let all = lines::DEVICES.iter().fold(lines::XIRQ | lines::IRQ, |all, line| all | line);
    assert_eq!((all, all.count_ones() as usize), (lines::ALL, lines::VECTORS.len()));
}

/// A machine in a handler of one RTI, which this line was entered by; its frame at $1FF7 has A $12 and CCR $80 and leads to $4000.
fn in_handler(line: u8, vector: u16) -> (Machine, Vec<u8>) {
    let (_, mut memory) = at_4000(&[0xA7]);
    memory[usize::from(vector)..][..2].copy_from_slice(&[0x56, 0x78]);
    memory[0x5678] = 0x0B;
    let mut state = state_at(0x4000, 0x80);
    state.sp = 0x2000;
    state.a = 0x12;
    let mut machine = Machine::new(state);
    assert_eq!(machine.step(&mut memory, line), Ok(9));
    (machine, memory)
}

/// A handler that is left with its line up is taken again by its RTI, in 10 cycles; with fewer left that RTI is not begun.
fn returns_to_requests() {
    for (bit, &vector) in lines::VECTORS.iter().enumerate() {
        let line = 1 << bit;
        let (machine, memory) = in_handler(line, vector);
        let mut bytes = memory.clone();
        let handling = machine.state();
        assert_eq!((handling.pc, handling.sp, handling.clock), (0x5678, 0x1FF7, 9));
        assert_eq!(handling.ccr, if line == lines::XIRQ { 0xD0 } else { 0x90 });
        // RTI pulls A, and leaves the rest as it is but for the clock.
        let (mut other_a, mut taken) = (handling, handling);
        other_a.a = 0;
        taken.clock = 19;
        let mut stepped = Machine::new(other_a);
        assert_eq!(stepped.step(&mut bytes, line), Ok(10));
        assert_eq!(stepped.state(), taken);
        // The line may fall as soon as RTI has begun.
        let up = [Record { cycle: 0, line }, Record { cycle: 10, line: 0 }];
        for budget in 0..=10 {
            let mut ran = Machine::new(other_a);
            let (cycles, expected) = if budget < 10 { (0, other_a) } else { (10, taken) };
            assert_eq!(ran.run(&mut bytes, &up, budget), Ok(cycles));
            assert_eq!(ran.state(), expected, "budget {}", budget);
        }
        // With a line that rises while RTI runs it comes back, and the line is entered after it.
        let mut back = Machine::new(other_a);
        let rises = [Record { cycle: 10, line }];
        assert_eq!(back.run(&mut bytes, &rises, 8), Ok(8));
        assert_eq!((back.state().pc, back.state().sp, back.state().ccr), (0x4000, 0x2000, 0x80));
        assert_eq!((back.state().a, back.state().clock), (0x12, 17));
        assert_eq!(back.run(&mut bytes, &rises, 9), Ok(9));
        taken.clock = 26;
        assert_eq!(back.state(), taken);
        assert!(bytes == memory, "no byte of the frame is another");
    }
}

/// A step under this byte, and runs of which one record has it: the first of 64, the last, and one that no clock value comes to.
/// A refusal leaves state and memory as they were, and 0 cycles used.
fn numbers_under(line: u8, machine: &Machine, memory: &[u8], budget: u32) -> [u32; 4] {
    let with_line_at = |place: u32| -> Vec<Record> {
        let line_of = |i| if i == place { line } else { 0 };
        (0..64).map(|i| Record { cycle: 50 + i, line: line_of(i) }).collect()
    };
    let never = vec![Record { cycle: u32::MAX, line }];
    let runs = [with_line_at(0), with_line_at(63), never];
    let kept = |done: &dyn Fn(&mut Machine, &mut [u8]) -> Result<u32, Error>| {
        let (mut after, mut bytes) = (*machine, memory.to_vec());
        let reply = number(done(&mut after, &mut bytes));
        if reply != 0 {
            assert_eq!((after.state(), after.cycles()), (machine.state(), 0));
            assert!(bytes == memory, "a refusal changed the memory");
        }
        reply
    };
    let [first, last, never] = runs.map(|records| kept(&|m, bytes| m.run(bytes, &records, budget)));
    [kept(&|m, bytes| m.step(bytes, line)), first, last, never]
}

/// Every line byte through the step and the run; and the place of reply 15 among the others.
fn wrong_lines() {
    // A machine that has used a cycle before, which a refusal sets to 0.
    let (mut machine, mut memory) = at_4000(&[0xA7; 4]);
    assert_eq!(machine.step(&mut memory, 0), Ok(1));
    for line in 0..=0xFF {
        let expected = if line & !lines::ALL != 0 { 15 } else { 0 };
        assert_eq!(numbers_under(line, &machine, &memory, 2), [expected; 4], "{:X}", line);
        let mut waiting = machine.state();
        waiting.waiting = true;
        assert_eq!(numbers_under(line, &Machine::new(waiting), &memory, 2), [expected; 4]);
    }
    for line in [0x40, 0x80, 0xC0, 0xFF] {
        assert_eq!(numbers_under(line, &machine, &memory[1..], 2), [1; 4]);
        // Before the limits of the budget and of the clock, and before 4 and 5.
        assert_eq!(numbers_under(line, &machine, &memory, 100_000_001), [15; 4]);
        let mut late = machine.state();
        late.clock = u32::MAX;
        assert_eq!(numbers_under(line, &Machine::new(late), &memory, 1), [15; 4]);
        for code in [&[0x00][..], &[0xB7, 0x35]] {
            let (machine, memory) = at_4000(code);
            assert_eq!(numbers_under(line, &machine, &memory, 0), [15; 4]);
        }
        // After the cycle numbers and the number of the records.
        let twice = [Record { cycle: 5, line }; 2];
        assert_eq!({ machine }.run(&mut memory, &twice, 1), Err(Error::WrongSchedule));
        let many: Vec<Record> = (0..65).map(|cycle| Record { cycle, line }).collect();
        assert_eq!({ machine }.run(&mut memory, &many, 1), Err(Error::WrongSchedule));
    }
}

/// Reply 15 by the bytes of a packed schedule, after the doors' own refusals.
fn wrong_lines_by_bytes() {
    let (machine, mut memory) = at_4000(&LDAA);
    let packed: Vec<u8> = (0..64).flat_map(|i| [0, 0, 0, i, 0]).collect();
    for place in 0..64 {
        for bit in [0x40, 0x80] {
            let mut schedule = packed.clone();
            schedule[5 * place + 4] = bit;
            assert_eq!(numbers(machine.record(), &memory, &schedule), (0, 0, 15));
            assert_eq!(numbers(machine.record(), &[], &schedule), (1, 1, 1));
            assert_eq!(numbers(machine.record(), &memory, &schedule[..319]), (0, 0, 102));
        }
    }
    let mut ask = |state: &mut [u8]| doors::step(state, &mut memory, 0x40);
    let mut record = *machine.record();
    assert_eq!(ask(&mut record), 15);
    assert_eq!(ask(&mut record[1..]), 100);
    record[doors::STATE - 1] = 1;
    assert_eq!(ask(&mut record), 103);
    record[WAITING] = 2;
    assert_eq!(ask(&mut record), 101);
}

/// The encodings that stop the machine, and no others of the two pages.
fn stops() {
    let stops = [0x00, 0x01, 0x0A, 0x3C, 0x4A, 0x4B];
    let after_18 = [0x3A, 0x3B, 0x3C, 0x3E];
    for opcode in 0..=255 {
        for (code, stopping) in [(vec![opcode], &stops[..]), (vec![0x18, opcode], &after_18)] {
            let (mut machine, mut memory) = at_4000(&code);
            let stopped = machine.step(&mut memory, 0) == Err(Error::Stopped);
            assert_eq!(stopped, stopping.contains(&opcode), "{:02X?}", code);
        }
    }
}

/// Every length near 0 and near 65,536, with bytes on both sides that must stay.
fn memory_lengths() {
    let (machine, _) = at_4000(&LDAA);
    for length in (0..=3).chain(65_533..=65_539) {
        let mut room = vec![0xA7; length + 32];
        let expected = if length == doors::MEMORY { Ok(1) } else { Err(Error::WrongMemory) };
        let memory = &mut room[16..16 + length];
        let mut reset = machine;
        assert_eq!(reset.reset(memory), expected.map(|_| ()));
        let pc = if length == doors::MEMORY { 0xA7A7 } else { 0 };
        assert_eq!(reset.state(), state_at(pc, 0xD0));
        let (mut stepped, mut ran) = (machine, machine);
        assert_eq!(stepped.step(memory, 0), expected);
        assert_eq!(ran.run(memory, &[], 1), expected);
        if length != doors::MEMORY {
            assert!(stepped == machine && ran == machine);
        }
        assert!(room.iter().all(|&byte| byte == 0xA7));
    }
}

/// What a machine leaves: reply, cycles used and state. The memory is changed in place.
type Left = (u32, u32, State);

fn by_the_second(case: &Case, memory: &mut [u8]) -> Left {
    let (cpu, outcome) = match &case.action {
        Action::Reset => machine::reset(memory),
        Action::Step { cpu, lines } => {
            let mut cpu = *cpu;
            let outcome = machine::step(&mut cpu, memory, *lines);
            (cpu, outcome)
        }
        Action::Run { cpu, budget, schedule } => {
            let mut cpu = *cpu;
            let outcome = machine::run(&mut cpu, memory, schedule, *budget);
            (cpu, outcome)
        }
    };
    (u32::from(outcome.reply.number()), outcome.cycles, state_of(&cpu))
}

fn through_the_boundary(case: &Case, memory: &mut [u8]) -> Left {
    let (machine, reply) = match &case.action {
        Action::Reset => {
            let mut waiting = state_at(1, 1);
            waiting.waiting = true;
            let mut machine = Machine::new(waiting);
            let reply = number(machine.reset(memory));
            (machine, reply)
        }
        Action::Step { cpu, lines } => {
            let mut machine = Machine::new(state_of(cpu));
            let reply = number(machine.step(memory, *lines));
            (machine, reply)
        }
        Action::Run { cpu, budget, schedule } => {
            let mut machine = Machine::new(state_of(cpu));
            let records: Vec<Record> =
                schedule.iter().map(|r| Record { cycle: r.cycle, line: r.lines }).collect();
            let reply = number(machine.run(memory, &records, *budget));
            (machine, reply)
        }
    };
    (reply, machine.cycles(), machine.state())
}

fn random_cases(count: u64, seed: u64) {
    let mut generator = Generator::new(Kind::Mixed, seed);
    let mut memories = Memories::default();
    let mut met = [0u64; 16];
    for _ in 0..count {
        let case = generator.next_case();
        let mut ours = memories.lay_out(&case).to_vec();
        let mut theirs = ours.clone();
        let found = through_the_boundary(&case, &mut ours);
        let expected = by_the_second(&case, &mut theirs);
        assert_eq!(found, expected, "the case, seed {}: {}", seed, case);
        assert!(ours == theirs, "the memories differ after the case, seed {}: {}", seed, case);
        met[found.0 as usize] += 1;
    }
    let mut replies = machine::Reply::ALL.iter().map(|reply| usize::from(reply.number()));
    assert!(count < 1_000 || replies.all(|reply| met[reply] > 0), "replies met: {:?}", met);
}

/// The program.
#[no_mangle]
pub extern "C" fn main(_count: c_int, _words: *const *const c_char) -> c_int {
    let (count, seed) = (asked("BOUNDARY_CASES", 100_000), asked("BOUNDARY_SEED", 1));
    assert_eq!(doors::version(), doors::VERSION);
    replies_of_the_machine();
    schedules();
    refused_records();
    refused_schedules();
    kept_records();
    unknown_numbers();
    request_lines();
    returns_to_requests();
    wrong_lines();
    wrong_lines_by_bytes();
    stops();
    memory_lengths();
    random_cases(count, seed);
    println!("Rust: every reply, the wrong lengths, and {} random cases, seed {}", count, seed);
    0
}
