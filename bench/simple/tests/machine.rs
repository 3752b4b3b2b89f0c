//! What random cases meet seldom: waits, schedules, budgets to the cycle, RTI under requests, the
//! end of memory.

use simple::{reset, run, step, Cpu, Outcome, Record, Reply};

const CODE: u16 = 0x4000;
const IRQ_HANDLER: u16 = 0x5000;
const XIRQ_HANDLER: u16 = 0x6000;
const WAI: u8 = 0x3E;
const RTI: u8 = 0x0B;
const NOP: u8 = 0xA7;

/// A machine that stands before an instruction, with its stack below $2000.
fn ready(pc: u16, ccr: u8, clock: u32) -> Cpu {
    let mut cpu = Cpu::default();
    cpu.pc = pc;
    cpu.sp = 0x2000;
    cpu.set_ccr(ccr);
    cpu.clock = clock;
    cpu
}

fn put(memory: &mut [u8], at: u16, bytes: &[u8]) {
    for (address, &byte) in (usize::from(at)..).zip(bytes) {
        memory[address % 65_536] = byte;
    }
}

/// A program, and handlers of XIRQ and of all other lines that come back.
fn image(code: &[u8]) -> Vec<u8> {
    let mut memory = vec![0; 65_536];
    put(&mut memory, CODE, code);
    put(&mut memory, IRQ_HANDLER, &[0x72, 0x10, 0x00, RTI]);
    put(&mut memory, XIRQ_HANDLER, &[0x72, 0x10, 0x01, RTI]);
    for vector in (0xFFEA..0xFFF4).step_by(2) {
        put(&mut memory, vector, &IRQ_HANDLER.to_be_bytes());
    }
    put(&mut memory, 0xFFF4, &XIRQ_HANDLER.to_be_bytes());
    memory
}

fn at(cycle: u32, line: u8) -> Record {
    Record { cycle, line }
}

fn line_at(schedule: &[Record], clock: u32) -> u8 {
    schedule.iter().rev().find(|record| record.cycle <= clock).map_or(0, |record| record.line)
}

/// A run by single steps: each is tried on copies and kept if the budget has enough for it.
fn by_steps(cpu: &mut Cpu, memory: &mut [u8], schedule: &[Record], budget: u32) -> Outcome {
    let mut cycles = 0;
    loop {
        let (mut next, mut bytes) = (cpu.clone(), memory.to_vec());
        let outcome = step(&mut next, &mut bytes, line_at(schedule, cpu.clock));
        if outcome.reply != Reply::Done || cycles + outcome.cycles > budget {
            return Outcome { reply: outcome.reply, cycles };
        }
        *cpu = next;
        memory.copy_from_slice(&bytes);
        cycles += outcome.cycles;
    }
}

/// Does a run at once and by steps, holds both against each other and gives what is left.
fn both(cpu: &Cpu, memory: &[u8], schedule: &[Record], budget: u32) -> (Cpu, Outcome) {
    let (mut cpu_1, mut memory_1) = (cpu.clone(), memory.to_vec());
    let (mut cpu_2, mut memory_2) = (cpu.clone(), memory.to_vec());
    let at_once = run(&mut cpu_1, &mut memory_1, schedule, budget);
    let one_by_one = by_steps(&mut cpu_2, &mut memory_2, schedule, budget);
    assert_eq!(at_once, one_by_one, "budget {budget}");
    assert_eq!(cpu_1, cpu_2, "budget {budget}");
    assert!(memory_1 == memory_2, "budget {budget}");
    (cpu_1, at_once)
}

#[test]
fn a_wait_is_skipped_to_its_request() {
    let memory = image(&[WAI, 0x00]);
    let cpu = ready(CODE, 0, 100);
    // WAI ends at 107, five idle cycles go to 112, and the handler begins at 118.
    let (left, outcome) = both(&cpu, &memory, &[at(112, 0x02)], 18);
    assert_eq!(outcome, Outcome { reply: Reply::Done, cycles: 18 });
    assert_eq!((left.pc, left.clock, left.waiting), (IRQ_HANDLER, 118, false));
    assert_eq!((left.ccr(), left.sp), (0x10, 0x1FF7));
    // It comes back behind WAI, where the machine stops.
    let (left, outcome) = both(&cpu, &memory, &[at(112, 0x02), at(118, 0)], 400);
    assert_eq!(outcome, Outcome { reply: Reply::Stopped, cycles: 30 });
    assert_eq!((left.pc, left.sp), (CODE + 1, 0x2000));
}

#[test]
fn a_budget_ends_inside_a_wait() {
    let memory = image(&[WAI, NOP]);
    let cpu = ready(CODE, 0, 100);
    let schedule = [at(160, 0x08)];
    for budget in 0..80 {
        let (left, outcome) = both(&cpu, &memory, &schedule, budget);
        assert_eq!(outcome.reply, Reply::Done);
        if (7..66).contains(&budget) {
            assert!(left.waiting);
            assert_eq!(left.clock, 100 + budget.min(60));
        }
    }
    // With 5 cycles left for the end of the wait the machine still waits where the line is up.
    let (left, outcome) = both(&cpu, &memory, &schedule, 65);
    assert_eq!((left.clock, left.waiting, outcome.cycles), (160, true, 60));
}

#[test]
fn a_second_run_goes_on_inside_a_wait() {
    let memory = image(&[WAI, NOP, NOP, 0x00]);
    let schedule = [at(300, 0x02), at(306, 0)];
    let (mut cpu, mut bytes) = (ready(CODE, 0, 0), memory.clone());
    let first = run(&mut cpu, &mut bytes, &schedule, 250);
    assert_eq!((first.cycles, cpu.clock, cpu.waiting), (250, 250, true));
    let second = run(&mut cpu, &mut bytes, &schedule, 250);
    assert_eq!(second.reply, Reply::Stopped);
    let (whole, outcome) = both(&ready(CODE, 0, 0), &memory, &schedule, 500);
    assert_eq!((whole, outcome.cycles), (cpu, first.cycles + second.cycles));
}

#[test]
fn records_in_the_middle_of_a_wait_that_are_masked() {
    let memory = image(&[WAI, 0x00]);
    // X is set: XIRQ at 150 does not end the wait, the device at 200 does.
    let schedule = [at(150, 0x01), at(200, 0x21), at(206, 0x00)];
    let (left, outcome) = both(&ready(CODE, 0x40, 100), &memory, &schedule, 106);
    assert_eq!((left.pc, left.clock, outcome.cycles), (IRQ_HANDLER, 206, 106));
    assert_eq!(left.ccr(), 0x50);
    // X is clear and I is set: it is the other way round.
    let schedule = [at(150, 0x20), at(200, 0x21), at(206, 0x00)];
    let (left, _) = both(&ready(CODE, 0x10, 100), &memory, &schedule, 106);
    assert_eq!((left.pc, left.ccr()), (XIRQ_HANDLER, 0x50));
}

#[test]
fn a_wait_with_both_masks_spends_the_whole_budget() {
    let memory = image(&[WAI]);
    let cpu = ready(CODE, 0x50, 0);
    let (left, outcome) = both(&cpu, &memory, &[at(20, 0x3F)], 300);
    assert_eq!((left.clock, left.waiting, outcome.cycles), (300, true, 300));
    let (mut cpu, mut bytes) = (cpu, memory);
    let outcome = run(&mut cpu, &mut bytes, &[at(20, 0x3F)], 100_000_000);
    assert_eq!(outcome, Outcome { reply: Reply::Done, cycles: 100_000_000 });
    assert_eq!((cpu.clock, cpu.waiting, cpu.pc), (100_000_000, true, CODE + 1));
}

#[test]
fn a_request_is_entered_at_its_very_cycle() {
    let memory = image(&[NOP; 64]);
    for cycle in 0..40 {
        let (mut cpu, mut bytes) = (ready(CODE, 0, 0), memory.clone());
        // The line is up at a single boundary, far from the end of the budget.
        let outcome = run(&mut cpu, &mut bytes, &[at(cycle, 0x02), at(cycle + 1, 0)], 75);
        assert_eq!(outcome, Outcome { reply: Reply::Done, cycles: 75 }, "cycle {cycle}");
        // The handler has counted once, and the frame is still there below SP.
        assert_eq!((bytes[0x1000], cpu.sp), (1, 0x2000), "cycle {cycle}");
        let return_address = u16::from_be_bytes([bytes[0x1FFE], bytes[0x1FFF]]);
        assert_eq!(u32::from(return_address), u32::from(CODE) + cycle);
        // 75 cycles less 9 for the entry, 4 for INC and 8 for RTI.
        assert_eq!(cpu.pc, CODE + 54, "cycle {cycle}");
    }
}

/// RTI at $4000, with a frame at $2000 that has these codes and leads to NOPs at $4001.
fn before_return(codes: u8, stacked: u8) -> (Cpu, Vec<u8>) {
    let mut memory = image(&[RTI, NOP, NOP, NOP]);
    put(&mut memory, 0x2000, &[stacked, 0xB0, 0xA0, 0x11, 0x12, 0x21, 0x22, 0x40, 0x01]);
    (ready(CODE, codes, 0), memory)
}

#[test]
fn rti_takes_a_request_that_the_pulled_masks_let_in() {
    // Codes before, codes in the frame, lines; then the cycles, PC and the codes.
    let cases = [
        (0xD0, 0x85, 0x00, 8, CODE + 1, 0x85),
        (0xD0, 0x85, 0x02, 10, IRQ_HANDLER, 0x95),
        (0xD0, 0x85, 0x20, 10, IRQ_HANDLER, 0x95),
        (0xD0, 0x85, 0x3F, 10, XIRQ_HANDLER, 0xD5),
        (0xD0, 0x95, 0x01, 10, XIRQ_HANDLER, 0xD5),
        (0xD0, 0x95, 0x3E, 8, CODE + 1, 0x95),
        (0xD0, 0xC5, 0x01, 8, CODE + 1, 0xC5),
        (0xD0, 0xC5, 0x03, 10, IRQ_HANDLER, 0xD5),
        (0xD0, 0xD5, 0x3F, 8, CODE + 1, 0xD5),
        // X stays clear whatever the frame has.
        (0x90, 0xC5, 0x02, 10, IRQ_HANDLER, 0x95),
        (0x90, 0xC5, 0x00, 8, CODE + 1, 0x85),
    ];
    for (codes, stacked, line, cycles, pc, ccr) in cases {
        let (mut cpu, mut memory) = before_return(codes, stacked);
        let before = memory.clone();
        let outcome = step(&mut cpu, &mut memory, line);
        assert_eq!(outcome, Outcome { reply: Reply::Done, cycles }, "{line:X} {stacked:X}");
        assert_eq!((cpu.pc, cpu.ccr()), (pc, ccr), "{line:X} {stacked:X}");
        assert_eq!(cpu.sp, if cycles == 10 { 0x2000 } else { 0x2009 });
        assert_eq!((cpu.a, cpu.b, cpu.x, cpu.y), (0xA0, 0xB0, 0x1112, 0x2122));
        assert!(memory == before);
    }
}

#[test]
fn a_request_that_is_let_in_before_rti_does_not_meet_it() {
    let (mut cpu, mut memory) = before_return(0x90, 0x00);
    assert_eq!(step(&mut cpu, &mut memory, 0x01).cycles, 9);
    assert_eq!((cpu.pc, cpu.sp, memory[0x1FFE]), (XIRQ_HANDLER, 0x1FF7, 0x40));
}

/// The line byte counts where RTI begins, and RTI is whole or not begun.
#[test]
fn rti_under_lines_that_rise_and_fall_within_any_budget() {
    let (cpu, memory) = before_return(0xD0, 0x05);
    for budget in 0..60 {
        for cycle in 0..14 {
            both(&cpu, &memory, &[at(cycle, 0x04)], budget);
            both(&cpu, &memory, &[at(0, 0x04), at(cycle + 1, 0)], budget);
            both(&cpu, &memory, &[at(0, 0x21), at(cycle + 1, 0x02), at(cycle + 9, 0)], budget);
        }
    }
    for budget in [8, 9] {
        let (left, outcome) = both(&cpu, &memory, &[at(0, 0x04)], budget);
        assert_eq!((left, outcome.reply, outcome.cycles), (cpu.clone(), Reply::Done, 0));
    }
    let (left, _) = both(&cpu, &memory, &[at(0, 0x04), at(1, 0)], 10);
    assert_eq!((left.pc, left.clock), (IRQ_HANDLER, 10));
    let (left, _) = both(&cpu, &memory, &[at(1, 0x04)], 17);
    assert_eq!((left.pc, left.clock, left.sp), (IRQ_HANDLER, 17, 0x2000));
}

#[test]
fn the_vector_of_rti_may_come_from_its_frame() {
    // B and A of the frame lie over the vector of IRQ.
    let (mut cpu, mut memory) = before_return(0xD0, 0x00);
    cpu.sp = 0xFFF1;
    put(&mut memory, cpu.sp, &[0x00, 0x12, 0x34]);
    assert_eq!(step(&mut cpu, &mut memory, 0x02).cycles, 10);
    assert_eq!((cpu.pc, cpu.sp, cpu.b, cpu.a), (0x1234, 0xFFF1, 0x12, 0x34));
}

/// Opens the masks and waits, again and again, with instructions of many costs between.
const BUSY: &[u8] = &[
    0x10, 0xAF, // ANDCC #$AF
    NOP,  // so that nothing has to be looked at before EMACS but the budget
    0x18, 0x12, 0x11, 0x00, // EMACS $1100
    0xA6, 0xE8, 0x10, // LDAA 16,Y
    0x18, 0x0A, 0x30, 0x70, // MOVB 1,X+,1,Y+
    0x14, 0x10, // ORCC #$10
    0x0E, 0x00, 0x01, 0x01, // BRSET 0,X,#$01,*+1
    NOP, 0x18, 0x30, // a trap
    WAI, 0x26, 0x00, // BNE *+2
    0x20, 0xE4, // BRA $4000
];

#[test]
fn a_run_of_64_records() {
    let mut memory = image(BUSY);
    put(&mut memory, 0xFFF8, &IRQ_HANDLER.to_be_bytes());
    let lines = [0x02, 0x00, 0x01, 0x24, 0x00, 0x03, 0x10, 0x05];
    let record = |i: u32| at(5 + i * 37, lines[i as usize % lines.len()]);
    let schedule: Vec<Record> = (0..64).map(record).collect();
    let cpu = ready(CODE, 0xD0, 0);
    let (left, outcome) = both(&cpu, &memory, &schedule, 3_000);
    assert_eq!(outcome.reply, Reply::Done);
    assert_eq!(left.clock, outcome.cycles);
    assert!(outcome.cycles > 2_987);
    for budget in (0..400).chain(2_340..2_400) {
        both(&cpu, &memory, &schedule, budget);
    }
}

#[test]
fn a_run_of_65_records_is_refused_and_changes_nothing() {
    let memory = image(BUSY);
    let cpu = ready(CODE, 0xD0, 0);
    let schedule: Vec<Record> = (0..65).map(|i| at(i, 0)).collect();
    let (mut after, mut bytes) = (cpu.clone(), memory.clone());
    let outcome = run(&mut after, &mut bytes, &schedule, 100);
    assert_eq!(outcome, Outcome { reply: Reply::WrongSchedule, cycles: 0 });
    assert_eq!(after, cpu);
    assert!(bytes == memory);
}

/// What a run on a memory of this length replies; it has to change nothing.
fn refused_run(length: usize, schedule: &[Record], clock: u32, budget: u32) -> u8 {
    let (cpu, memory) = (ready(CODE, 0, clock), vec![NOP; length]);
    let (mut after, mut bytes) = (cpu.clone(), memory.clone());
    let outcome = run(&mut after, &mut bytes, schedule, budget);
    assert_eq!((outcome.cycles, after), (0, cpu));
    assert!(bytes == memory);
    outcome.reply.number()
}

#[test]
fn a_bit_that_is_no_line_is_refused_in_any_record() {
    for line in [0x40, 0x80, 0xC0, 0xFF] {
        for wrong in 0..64 {
            let record = |i: u32| at(10 * i, if i == wrong { line } else { 0x02 });
            let schedule: Vec<Record> = (0..64).map(record).collect();
            for budget in [0, 1, 1_000, 100_000_001] {
                assert_eq!(refused_run(65_536, &schedule, 0, budget), 15);
            }
            assert_eq!(refused_run(65_536, &schedule, u32::MAX, 1), 15);
            assert_eq!(refused_run(65_535, &schedule, 0, 1), 1);
        }
        // After the cycle numbers, and whether the record can come into force or not.
        assert_eq!(refused_run(65_536, &[at(5, line), at(5, 0)], 0, 1), 2);
        assert_eq!(refused_run(65_536, &[at(u32::MAX, line)], 0, 1), 15);
    }
}

#[test]
fn a_bit_that_is_no_line_is_refused_in_a_step() {
    for line in 0..=0xFF {
        // A stop, a reserved postbyte, a NOP, and the same past the limit of the clock.
        for (code, reply) in [(&[0x00, 0x00], 4), (&[0xB7, 0x33], 5), (&[NOP, NOP], 0)] {
            for (clock, reply) in [(3_999_999_900, reply), (3_999_999_901, 3)] {
                let (mut cpu, mut memory) = (ready(CODE, 0xD0, clock), image(code));
                let before = (cpu.clone(), memory.clone());
                let outcome = step(&mut cpu, &mut memory, line);
                let expected = if line > 0x3F { 15 } else { reply };
                assert_eq!(outcome.reply.number(), expected, "{line:X}");
                if expected != 0 {
                    assert_eq!((outcome.cycles, &cpu), (0, &before.0));
                    assert!(memory == before.1);
                }
            }
        }
        assert_eq!(step(&mut ready(CODE, 0, 0), &mut [NOP; 3], line).reply, Reply::WrongMemory);
    }
}

#[test]
fn an_instruction_goes_on_at_address_0() {
    // MOVB $1234 to $5678, six bytes.
    let code = [0x18, 0x0C, 0x12, 0x34, 0x56, 0x78];
    for pc in 0xFFF0..=0xFFFF {
        let mut memory = vec![0; 65_536];
        put(&mut memory, pc, &code);
        memory[0x1234] = 0x9A;
        let mut cpu = ready(pc, 0xD0, 0);
        let outcome = step(&mut cpu, &mut memory, 0);
        assert_eq!(outcome, Outcome { reply: Reply::Done, cycles: 6 }, "at {pc:X}");
        assert_eq!((cpu.pc, memory[0x5678]), (pc.wrapping_add(6), 0x9A), "at {pc:X}");
    }
}

#[test]
fn every_ccr_comes_back_as_it_was_set() {
    let mut memory = image(&[NOP]);
    for ccr in 0..=0xFF {
        let mut cpu = ready(CODE, ccr, 0);
        step(&mut cpu, &mut memory, 0);
        assert_eq!((cpu.ccr(), cpu.pc), (ccr, CODE + 1));
    }
}

#[test]
fn a_reset_with_a_wrong_memory_has_pc_0() {
    let (mut cpu, reply) = reset(&[0; 65_535]);
    assert_eq!((reply, reply.number()), (Reply::WrongMemory, 1));
    assert_eq!((cpu.pc, cpu.ccr()), (0, 0xD0));
    let mut memory = image(&[]);
    put(&mut memory, 0xFFFE, &CODE.to_be_bytes());
    cpu.pc = CODE;
    assert_eq!(reset(&memory), (cpu, Reply::Done));
}
