//! Interrupt entries, masks, waiting and traps. RTI under requests is in `returns.rs`.

mod common;

use common::Bench;
use second::cpu::Cpu;
use second::machine::{Record, Reply};

/// Every vector points at its own line number times $100 above $5000, with NOPs there.
fn with_vectors(code: &[u8]) -> Bench {
    let mut bench = Bench::with(code);
    for line in 0..6u16 {
        bench.put(0xFFF4 - 2 * line, &(0x5000 + 0x100 * line).to_be_bytes());
        bench.put(0x5000 + 0x100 * line, &[0xA7, 0xA7, 0x0B]);
    }
    bench
}

#[test]
fn the_frame_of_an_entry() {
    let mut bench = with_vectors(&[0xA7]);
    bench.cpu = Cpu { a: 0xAA, b: 0xBB, x: 0x1122, y: 0x3344, ccr: 0x85, ..bench.cpu };
    assert_eq!(bench.step_under(0x02), 9);
    assert_eq!(
        bench.memory[0x1FF7..0x2000],
        [0x85, 0xBB, 0xAA, 0x11, 0x22, 0x33, 0x44, 0x40, 0x00]
    );
    assert_eq!((bench.cpu.sp, bench.cpu.pc, bench.cpu.ccr), (0x1FF7, 0x5100, 0x95));
    assert_eq!((bench.cpu.a, bench.cpu.b, bench.cpu.x, bench.cpu.y), (0xAA, 0xBB, 0x1122, 0x3344));
}

#[test]
fn the_lowest_allowed_line_goes_first() {
    for lines in 1..=0x3Fu8 {
        for masks in [0x00, 0x10, 0x40, 0x50] {
            let mut bench = with_vectors(&[0xA7]);
            bench.cpu.ccr = masks;
            bench.step_under(lines);
            let allowed = (if masks & 0x40 == 0 { lines & 0x01 } else { 0 })
                | (if masks & 0x10 == 0 { lines & 0x3E } else { 0 });
            if allowed == 0 {
                assert_eq!((bench.cpu.pc, bench.cpu.ccr), (0x4001, masks));
                continue;
            }
            let line = allowed.trailing_zeros() as u16;
            let set = if line == 0 { 0x50 } else { 0x10 };
            assert_eq!((bench.cpu.pc, bench.cpu.ccr), (0x5000 + 0x100 * line, masks | set));
        }
    }
}

/// A machine that would enter, wake, idle or go on under a line byte is refused under the same
/// byte with bit 6 or 7 set, and goes on as it would have under the byte without them.
#[test]
fn a_bit_that_is_no_line_is_refused_and_not_dropped() {
    for lines in 0..=0xFFu8 {
        for (masks, waiting) in [(0x00, false), (0x50, false), (0x00, true), (0x50, true)] {
            let mut bench = with_vectors(&[0xA7]);
            (bench.cpu.ccr, bench.cpu.waiting) = (masks, waiting);
            let (cpu, memory) = (bench.cpu, bench.memory.clone());
            let outcome = bench.try_step(lines);
            assert_eq!(outcome.reply == Reply::WrongLine, lines > 0x3F, "{:X}", lines);
            if lines > 0x3F {
                assert_eq!((outcome.cycles, bench.cpu), (0, cpu));
                assert!(bench.memory == memory);
                bench.step_under(lines & 0x3F);
            }
            let mut other = with_vectors(&[0xA7]);
            (other.cpu.ccr, other.cpu.waiting) = (masks, waiting);
            other.step_under(lines & 0x3F);
            assert_eq!(bench.cpu, other.cpu, "{:X}", lines);
            assert!(bench.memory == other.memory);
        }
    }
}

#[test]
fn an_entry_over_the_end_of_memory() {
    let mut bench = with_vectors(&[0xA7]);
    (bench.cpu.sp, bench.cpu.ccr) = (0x0004, 0x00);
    bench.step_under(1);
    assert_eq!(bench.cpu.sp, 0xFFFB);
    assert_eq!((bench.byte(0xFFFB), bench.word(0x0002), bench.cpu.pc), (0x00, 0x4000, 0x5000));
}

#[test]
fn wai_pushes_idles_and_wakes() {
    let mut bench = with_vectors(&[0x3E, 0x42]);
    bench.cpu.ccr = 0x00;
    bench.cpu.a = 7;
    assert_eq!(bench.step(), 7);
    assert_eq!((bench.cpu.waiting, bench.cpu.sp, bench.cpu.pc), (true, 0x1FF7, 0x4001));
    assert_eq!((bench.word(0x1FFE), bench.byte(0x1FF7)), (0x4001, 0x00));
    assert_eq!(bench.step(), 1);
    assert_eq!((bench.cpu.waiting, bench.cpu.sp, bench.cpu.clock), (true, 0x1FF7, 8));
    let memory = bench.memory.clone();
    assert_eq!(bench.step_under(0x08), 6);
    assert_eq!((bench.cpu.waiting, bench.cpu.sp, bench.cpu.pc), (false, 0x1FF7, 0x5300));
    assert_eq!((bench.cpu.ccr, bench.memory == memory), (0x10, true));
    // NOP, NOP, RTI: back behind WAI with everything as it was.
    bench.steps(3);
    assert_eq!((bench.cpu.pc, bench.cpu.sp, bench.cpu.ccr, bench.cpu.a), (0x4001, 0x2000, 0x00, 7));
}

#[test]
fn a_masked_request_does_not_wake() {
    let mut bench = with_vectors(&[0x3E]);
    bench.cpu.ccr = 0x50;
    bench.step();
    assert_eq!(bench.step_under(0x3F), 1);
    assert!(bench.cpu.waiting);
    // With X clear only XIRQ wakes, and it sets both masks.
    bench.cpu.ccr = 0x10;
    assert_eq!(bench.step_under(0x3E), 1);
    assert_eq!(bench.step_under(0x3F), 6);
    assert_eq!((bench.cpu.pc, bench.cpu.ccr), (0x5000, 0x50));
}

#[test]
fn the_vector_that_ends_a_wait_may_come_from_the_frame() {
    // The frame covers the XIRQ vector: CCR at $FFF4, B at $FFF5.
    let mut bench = with_vectors(&[0x3E]);
    bench.cpu = Cpu { b: 0xCD, sp: 0xFFFD, ccr: 0x85, ..bench.cpu };
    bench.step();
    assert_eq!(bench.cpu.sp, 0xFFF4);
    bench.step_under(1);
    assert_eq!(bench.cpu.pc, 0x85CD);
}

#[test]
fn a_request_where_wai_would_begin_is_an_ordinary_entry() {
    let mut bench = with_vectors(&[0x3E]);
    bench.cpu.ccr = 0x00;
    assert_eq!(bench.step_under(0x04), 9);
    assert_eq!((bench.word(0x1FFE), bench.cpu.waiting), (0x4000, false));
}

#[test]
fn swi_and_traps_ignore_the_masks() {
    for masks in [0x00, 0x10, 0x40, 0x50] {
        for (code, vector, cycles) in [(&[0x3F][..], 0xFFF6, 9), (&[0x18, 0x39], 0xFFF8, 10)] {
            let mut bench = Bench::with(code);
            bench.cpu.ccr = masks;
            bench.put(vector, &[0x77, 0x66]);
            assert_eq!(bench.step(), cycles);
            assert_eq!((bench.cpu.pc, bench.cpu.ccr), (0x7766, masks | 0x10));
            assert_eq!(usize::from(bench.word(0x1FFE)), 0x4000 + code.len());
            assert_eq!(bench.byte(0x1FF7), masks);
        }
    }
}

#[test]
fn a_request_counts_only_while_its_line_is_up() {
    // Up from 3 to 5 while a 12-cycle division runs: nobody sees it.
    let pulse = [Record { cycle: 3, lines: 1 }, Record { cycle: 6, lines: 0 }];
    let mut bench = with_vectors(&[0x18, 0x10, 0xA7, 0xA7, 0xA7]);
    bench.cpu.ccr = 0x00;
    bench.cpu.x = 1;
    let outcome = bench.run(&pulse, 14);
    assert_eq!((outcome.reply, bench.cpu.pc, bench.cpu.clock), (Reply::Done, 0x4004, 14));
}

#[test]
fn the_lines_are_looked_at_from_the_clock_not_from_zero() {
    let up = [Record { cycle: 1_000, lines: 2 }];
    let mut bench = with_vectors(&[0xA7, 0xA7]);
    (bench.cpu.ccr, bench.cpu.clock) = (0x00, 999);
    bench.run(&up, 10);
    assert_eq!((bench.cpu.pc, bench.cpu.clock, bench.word(0x1FFE)), (0x5100, 1_009, 0x4001));
}

#[test]
fn interrupts_come_right_after_cli() {
    let mut bench = with_vectors(&[0x10, 0xEF, 0x42]);
    bench.step_under(0x02);
    assert_eq!(bench.step_under(0x02), 9);
    assert_eq!((bench.cpu.a, bench.word(0x1FFE)), (0, 0x4002));
}
