//! The six traps for the hasty.

mod common;

use common::{after, Bench};
use second::machine::Reply;

#[test]
fn b_lies_below_a_in_the_frame() {
    let mut bench = Bench::with(&[0x3F]);
    bench.cpu.a = 0xAA;
    bench.cpu.b = 0xBB;
    bench.step();
    assert_eq!((bench.byte(bench.cpu.sp + 1), bench.byte(bench.cpu.sp + 2)), (0xBB, 0xAA));

    let mut back = Bench::with(&[0x0B]);
    back.put(0x2000, &[0xD0, 0xBB, 0xAA, 1, 2, 3, 4, 5, 6]);
    back.step();
    assert_eq!((back.cpu.a, back.cpu.b), (0xAA, 0xBB));
}

#[test]
fn the_vector_is_taken_before_the_pushes() {
    // SWI: the frame covers its own vector.
    let mut bench = Bench::with(&[0x3F]);
    bench.cpu.sp = 0xFFFA;
    bench.put(0xFFF6, &[0x12, 0x34]);
    bench.step();
    assert_eq!(bench.cpu.pc, 0x1234);
    assert_ne!(bench.word(0xFFF6), 0x1234);
    // TRAP.
    let mut bench = Bench::with(&[0x18, 0x40]);
    bench.cpu.sp = 0xFFFB;
    bench.put(0xFFF8, &[0x23, 0x45]);
    bench.step();
    assert_eq!(bench.cpu.pc, 0x2345);
    assert_ne!(bench.word(0xFFF8), 0x2345);
    // A request.
    let mut bench = Bench::with(&[0xA7]);
    bench.cpu.ccr = 0;
    bench.cpu.sp = 0xFFF6;
    bench.put(0xFFF4, &[0x34, 0x56]);
    bench.step_under(1);
    assert_eq!(bench.cpu.pc, 0x3456);
    assert_ne!(bench.word(0xFFF4), 0x3456);
}

#[test]
fn inc_and_dec_keep_c_and_ins_keeps_everything() {
    for ccr in [0x00, 0x01] {
        for code in [0x42, 0x52, 0x43, 0x53] {
            assert_eq!(after(&[code], |cpu| cpu.ccr = ccr).ccr & 1, ccr & 1);
        }
        for code in [[0x62, 0x00], [0x63, 0x00]] {
            assert_eq!(after(&code, |cpu| cpu.ccr = ccr).ccr & 1, ccr & 1);
        }
    }
    for ccr in 0..=255 {
        let cpu = after(&[0x1B, 0x81], |cpu| {
            cpu.ccr = ccr;
            cpu.sp = 0xFFFF;
        });
        assert_eq!((cpu.sp, cpu.ccr), (0x0000, ccr));
    }
}

#[test]
fn an_accumulator_offset_is_unsigned() {
    let cpu = after(&[0x19, 0xE4], |cpu| {
        cpu.x = 0x1000;
        cpu.a = 0xFF;
    });
    assert_eq!(cpu.y, 0x10FF);
    let cpu = after(&[0x19, 0xE5], |cpu| {
        cpu.x = 0x1000;
        cpu.b = 0x80;
    });
    assert_eq!(cpu.y, 0x1080);
}

#[test]
fn pc_as_a_base_is_the_end_of_the_instruction() {
    assert_eq!(after(&[0x1A, 0xC5], |_| {}).x, 0x4002 + 5);
    assert_eq!(after(&[0x1A, 0xF8, 0x20], |_| {}).x, 0x4003 + 0x20);
    assert_eq!(after(&[0x1A, 0xFA, 0x01, 0x00], |_| {}).x, 0x4004 + 0x100);
    // Mask and branch offset belong to the instruction too.
    let mut bench = Bench::with(&[0x0C, 0xC3, 0x81]);
    bench.step();
    assert_eq!(bench.byte(0x4003 + 3), 0x81);
    let mut bench = Bench::with(&[0x0F, 0xC3, 0xFF, 0x10]);
    bench.put(0x4004 + 3, &[0x01]);
    bench.step();
    assert_eq!(bench.cpu.pc, 0x4004);
}

#[test]
fn no_part_of_a_step_is_spent() {
    // INCA costs 1, JSR 4: with four cycles the JSR is not begun.
    let mut bench = Bench::with(&[0x42, 0x16, 0x50, 0x00]);
    let before = bench.memory.clone();
    let outcome = bench.run(&[], 4);
    assert_eq!((outcome.reply, outcome.cycles), (Reply::Done, 1));
    assert_eq!((bench.cpu.pc, bench.cpu.sp, bench.cpu.clock), (0x4001, 0x2000, 1));
    assert_eq!(bench.memory, before);
    assert_eq!(bench.run(&[], 4).cycles, 4);
    assert_eq!((bench.cpu.pc, bench.word(0x1FFE)), (0x5000, 0x4004));
}
