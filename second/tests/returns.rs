//! RTI where a request is waiting: the masks that it pulls decide (002 p. 6-177 and section
//! 7.4.5, p. 7-5).

mod common;

use common::Bench;
use second::cpu::Cpu;
use second::machine::{Outcome, Record, Reply};

const RTI: u8 = 0x0B;
const NOP: u8 = 0xA7;
const WAI: u8 = 0x3E;

const X: u8 = 0x40;
const I: u8 = 0x10;
const MASKS: [u8; 4] = [0, I, X, X | I];

/// Where the handler of a line begins.
fn handler(line: u16) -> u16 {
    0x5000 + 0x100 * line
}

/// A frame after its CCR: B, A, X, Y and the return address $6000.
const REST: [u8; 8] = [0xB0, 0xA0, 0x11, 0x12, 0x21, 0x22, 0x60, 0x00];

/// RTI at $4000, a frame with these codes at $2000, and a handler of one RTI for each line.
fn before_return(codes: u8, stacked: u8) -> Bench {
    let mut bench = Bench::with(&[RTI]);
    for line in 0..6 {
        bench.put(0xFFF4 - 2 * line, &handler(line).to_be_bytes());
        bench.put(handler(line), &[RTI]);
    }
    bench.put(0x2000, &[stacked]);
    bench.put(0x2001, &REST);
    bench.put(0x6000, &[NOP; 64]);
    bench.cpu.ccr = codes;
    bench
}

/// The lowest line of a byte that these masks let in.
fn let_in(lines: u8, masks: u8) -> Option<u16> {
    let xirq = if masks & X == 0 { lines & 0x01 } else { 0 };
    let others = if masks & I == 0 { lines & 0x3E } else { 0 };
    let open = xirq | others;
    if open == 0 {
        None
    } else {
        Some(open.trailing_zeros() as u16)
    }
}

fn masks_of(line: u16) -> u8 {
    if line == 0 {
        X | I
    } else {
        I
    }
}

/// The registers that the frame holds.
fn pulled(codes: u8, stacked: u8) -> Cpu {
    let ccr = if codes & X == 0 { stacked & !X } else { stacked };
    let (a, b, x, y) = (0xA0, 0xB0, 0x1112, 0x2122);
    Cpu { a, b, x, y, sp: 0x2009, pc: 0x6000, ccr, ..Cpu::default() }
}

/// One step under a line byte, and what it has to leave.
fn check_one(lines: u8, codes: u8, stacked: u8) {
    let mut bench = before_return(codes, stacked);
    let (before, memory) = (bench.cpu, bench.memory.clone());
    let after = pulled(codes, stacked);
    let expected = if let Some(line) = let_in(lines, codes) {
        // An ordinary entry, with the address of RTI in the frame.
        let ccr = codes | masks_of(line);
        Cpu { sp: 0x1FF7, pc: handler(line), ccr, clock: 9, ..before }
    } else if let Some(line) = let_in(lines, after.ccr) {
        let ccr = after.ccr | masks_of(line);
        Cpu { sp: 0x2000, pc: handler(line), ccr, clock: 10, ..after }
    } else {
        Cpu { clock: 8, ..after }
    };
    assert_eq!(bench.step_under(lines), expected.clock);
    assert_eq!(bench.cpu, expected, "{:X} {:X} {:X}", lines, codes, stacked);
    if expected.clock == 9 {
        assert_eq!((bench.byte(0x1FF7), bench.word(0x1FFE)), (codes, 0x4000));
    } else {
        assert!(bench.memory == memory, "{:X} {:X} {:X}", lines, codes, stacked);
    }
}

#[test]
fn every_line_byte_under_all_masks_before_and_in_the_frame() {
    for lines in 0..=0x3F {
        for before in MASKS {
            for stacked in MASKS {
                // The other codes are all told from those before.
                check_one(lines, before | 0x25, stacked | 0x8A);
                check_one(lines, before | 0x8A, stacked | 0x25);
            }
        }
    }
}

/// The vector may come from the bytes that were pulled, wherever in the frame it lies.
#[test]
fn a_frame_over_the_vectors() {
    for line in 0..6u16 {
        let vector = 0xFFF4 - 2 * line;
        for sp in vector - 8..=vector + 1 {
            let mut bench = before_return(0xD0, 0x00);
            bench.cpu.sp = sp;
            bench.put(sp, &[0x81]);
            bench.put(sp + 1, &REST);
            let (word, memory) = (bench.word(vector), bench.memory.clone());
            assert_ne!(word, handler(line), "the frame covers the vector");
            assert_eq!(bench.step_under(1 << line), 10);
            let ccr = 0x81 | masks_of(line);
            assert_eq!((bench.cpu.pc, bench.cpu.sp, bench.cpu.ccr), (word, sp, ccr));
            assert_eq!((bench.cpu.d(), bench.cpu.x, bench.cpu.y), (0xA0B0, 0x1112, 0x2122));
            assert!(bench.memory == memory);
        }
    }
}

#[test]
fn a_frame_over_the_end_of_memory() {
    for sp in 0xFFF8..=0xFFFF {
        for line in 0..6u16 {
            let mut bench = before_return(0xD0, 0x00);
            bench.cpu.sp = sp;
            bench.put(sp, &[0x01]);
            bench.put(sp.wrapping_add(1), &REST);
            let memory = bench.memory.clone();
            assert_eq!(bench.step_under(1 << line), 10);
            assert_eq!((bench.cpu.pc, bench.cpu.sp), (handler(line), sp));
            assert_eq!((bench.cpu.d(), bench.cpu.x, bench.cpu.y), (0xA0B0, 0x1112, 0x2122));
            assert!(bench.memory == memory);
        }
    }
}

/// RTI stands in the frame that it pulls: its own opcode is the CCR, with both masks clear.
#[test]
fn a_frame_over_rti_itself() {
    let mut bench = before_return(0xD0, 0x00);
    bench.cpu.sp = 0x4000;
    bench.put(0x4001, &REST);
    assert_eq!(bench.step_under(0x04), 10);
    assert_eq!((bench.cpu.ccr, bench.cpu.sp, bench.cpu.pc), (0x1B, 0x4000, handler(2)));
}

#[test]
fn ten_cycles_are_its_cost_for_the_budget() {
    let up = [Record { cycle: 0, lines: 0x02 }];
    for budget in 0..=10 {
        let mut bench = before_return(0xD0, 0xC0);
        let (before, memory) = (bench.cpu, bench.memory.clone());
        let outcome = bench.run(&up, budget);
        assert_eq!(outcome.reply, Reply::Done);
        if budget < 10 {
            assert_eq!((outcome.cycles, bench.cpu), (0, before), "budget {}", budget);
        } else {
            assert_eq!((outcome.cycles, bench.cpu.pc), (10, handler(1)));
        }
        assert!(bench.memory == memory);
    }
    // Without the line 8 will do.
    assert_eq!(before_return(0xD0, 0xC0).run(&[], 8).cycles, 8);
    assert_eq!(before_return(0xD0, 0xC0).run(&[], 7).cycles, 0);
}

#[test]
fn a_line_that_rises_while_rti_runs_is_an_ordinary_entry() {
    for rises in 1..=8 {
        let mut bench = before_return(0xD0, 0x05);
        let outcome = bench.run(&[Record { cycle: rises, lines: 0x04 }], 17);
        assert_eq!(outcome, Outcome { reply: Reply::Done, cycles: 17 });
        assert_eq!((bench.cpu.pc, bench.cpu.sp, bench.cpu.ccr), (handler(2), 0x2000, 0x15));
        assert_eq!((bench.byte(0x2000), bench.word(0x2007)), (0x05, 0x6000));
    }
    // Where RTI ends, and a cycle later: then the program goes on with one instruction.
    let mut bench = before_return(0xD0, 0x05);
    bench.run(&[Record { cycle: 9, lines: 0x04 }], 18);
    assert_eq!((bench.cpu.pc, bench.word(0x2007)), (handler(2), 0x6001));
}

/// A masked line that is up where RTI begins does not hide one that rises later.
#[test]
fn what_rises_beside_a_masked_line_is_an_ordinary_entry() {
    let records = [Record { cycle: 0, lines: 0x20 }, Record { cycle: 3, lines: 0x21 }];
    let mut bench = before_return(0xD0, 0x10);
    assert_eq!(bench.run(&records, 17).cycles, 17);
    assert_eq!((bench.cpu.pc, bench.cpu.ccr, bench.byte(0x2000)), (handler(0), 0x50, 0x10));
}

#[test]
fn a_line_that_falls_while_rti_runs_is_still_taken() {
    for falls in 1..=10 {
        let records = [Record { cycle: 0, lines: 0x10 }, Record { cycle: falls, lines: 0 }];
        let mut bench = before_return(0xD0, 0x00);
        let outcome = bench.run(&records, 10);
        assert_eq!((outcome.cycles, bench.cpu.pc, bench.cpu.sp), (10, handler(4), 0x2000));
    }
    // One that falls where RTI begins is not.
    let mut bench = before_return(0xD0, 0x00);
    bench.cpu.clock = 7;
    let records = [Record { cycle: 0, lines: 0x10 }, Record { cycle: 7, lines: 0 }];
    assert_eq!(bench.run(&records, 8).cycles, 8);
    assert_eq!((bench.cpu.pc, bench.cpu.sp), (0x6000, 0x2009));
}

#[test]
fn xirq_is_taken_if_x_was_set_and_falls() {
    let mut bench = before_return(0xD0, 0x93);
    assert_eq!(bench.step_under(0x3F), 10);
    assert_eq!((bench.cpu.pc, bench.cpu.ccr, bench.byte(0x2000)), (handler(0), 0xD3, 0x93));
    // X stays set: IRQ is the lowest that the pulled masks let in.
    let mut bench = before_return(0xD0, 0xC3);
    assert_eq!(bench.step_under(0x3F), 10);
    assert_eq!((bench.cpu.pc, bench.cpu.ccr, bench.byte(0x2000)), (handler(1), 0xD3, 0xC3));
}

/// X cannot rise by RTI, so it is clear after the pull; the byte in the frame keeps its bit.
#[test]
fn the_stacked_codes_stay_as_they_are() {
    let mut bench = before_return(0x90, 0xC3);
    assert_eq!(bench.step_under(0x08), 10);
    assert_eq!((bench.cpu.pc, bench.cpu.ccr, bench.byte(0x2000)), (handler(3), 0x93, 0xC3));
}

/// By p. 6-177 the same as to pull and to stack again, but faster. It is, wherever the codes in
/// the frame are the codes that are pulled.
#[test]
fn the_registers_are_as_if_stacked_again() {
    for stacked in [0x00, 0x2F, 0x80, 0xAF, 0x10, 0x40] {
        for lines in [0x01, 0x02, 0x3E, 0x3F] {
            let (mut at_once, mut in_two) =
                (before_return(0xD0, stacked), before_return(0xD0, stacked));
            if let_in(lines, stacked).is_none() {
                continue;
            }
            assert_eq!(at_once.step_under(lines), 10);
            assert_eq!((in_two.step_under(0), in_two.step_under(lines)), (8, 9));
            in_two.cpu.clock = at_once.cpu.clock;
            assert_eq!(at_once.cpu, in_two.cpu, "{:X} {:X}", stacked, lines);
            assert!(at_once.memory == in_two.memory);
        }
    }
}

/// The line stays up through four handlers: an entry, three RTI that come round, and one that
/// comes back after the line has fallen.
#[test]
fn handlers_one_after_another() {
    let mut bench = before_return(0x80, 0x00);
    (bench.cpu.pc, bench.cpu.sp) = (0x6000, 0x3000);
    let records = [Record { cycle: 0, lines: 0x02 }, Record { cycle: 39, lines: 0 }];
    let outcome = bench.run(&records, 9 + 3 * 10);
    assert_eq!((outcome.cycles, bench.cpu.pc, bench.cpu.sp), (39, handler(1), 0x2FF7));
    assert_eq!(bench.run(&records, 8).cycles, 8);
    assert_eq!((bench.cpu.pc, bench.cpu.sp, bench.cpu.ccr), (0x6000, 0x3000, 0x80));
}

/// The example of docs/MACHINE.md, "RTI with a request waiting".
#[test]
fn the_example_of_the_rules() {
    let mut bench = Bench::with(&[NOP]);
    bench.put(0xFFF2, &[0x50, 0x00]);
    bench.put(0x5000, &[NOP, RTI]);
    (bench.cpu.ccr, bench.cpu.clock) = (0x00, 100);
    let records = [Record { cycle: 100, lines: 0x02 }, Record { cycle: 125, lines: 0 }];
    let steps = [
        (9, 0x5000, 0x1FF7, 109),
        (1, 0x5001, 0x1FF7, 110),
        (10, 0x5000, 0x1FF7, 120),
        (1, 0x5001, 0x1FF7, 121),
        (10, 0x5000, 0x1FF7, 131),
        (1, 0x5001, 0x1FF7, 132),
        (8, 0x4000, 0x2000, 140),
    ];
    for (cycles, pc, sp, clock) in steps {
        assert_eq!(bench.run(&records, cycles).cycles, cycles);
        assert_eq!((bench.cpu.pc, bench.cpu.sp, bench.cpu.clock), (pc, sp, clock));
    }
}

/// Each handler is left for that of the next line, while the frame stays that of the program.
/// XIRQ comes first: after it X falls, and XIRQ would be entered before RTI.
#[test]
fn another_line_after_each_handler() {
    let mut bench = before_return(0xD0, 0x00);
    for line in [0, 5, 3, 1, 4, 2] {
        assert_eq!(bench.step_under(1 << line), 10);
        assert_eq!((bench.cpu.pc, bench.cpu.sp), (handler(line), 0x2000));
    }
    assert_eq!(bench.step_under(0), 8);
    assert_eq!((bench.cpu.pc, bench.cpu.sp, bench.cpu.ccr), (0x6000, 0x2009, 0x00));
}

#[test]
fn rti_back_to_a_wait() {
    // With a line up the WAI that the frame leads to is not begun.
    let mut bench = before_return(0xD0, 0x00);
    bench.put(0x6000, &[WAI]);
    assert_eq!(bench.step_under(0x02), 10);
    assert_eq!((bench.cpu.pc, bench.cpu.waiting, bench.word(0x2007)), (handler(1), false, 0x6000));
    // Without one it is, and it waits.
    assert_eq!((bench.step_under(0), bench.step_under(0)), (8, 7));
    assert_eq!((bench.cpu.pc, bench.cpu.waiting, bench.cpu.sp), (0x6001, true, 0x2000));
    assert_eq!(bench.step_under(0x02), 6);
}

#[test]
fn a_machine_that_waits_before_rti_idles() {
    let mut bench = before_return(0xD0, 0x00);
    bench.cpu.waiting = true;
    assert_eq!(bench.step_under(0x3F), 1);
    assert_eq!((bench.cpu.pc, bench.cpu.sp, bench.cpu.waiting), (0x4000, 0x2000, true));
}
