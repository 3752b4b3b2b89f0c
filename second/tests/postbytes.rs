//! The postbyte tables: indexed (002 table A-3), transfers and exchanges, loops.

mod common;

use common::{after, Bench};
use second::cpu::Cpu;
use second::machine::Reply;

const X: u16 = 0x1000;
const Y: u16 = 0x2400;
const SP: u16 = 0x3800;
const D: u16 = 0x0123;

/// A bench with a different value in every register.
fn bench(code: &[u8]) -> Bench {
    let mut bench = Bench::with(code);
    (bench.cpu.x, bench.cpu.y, bench.cpu.sp) = (X, Y, SP);
    bench.cpu.set_d(D);
    bench
}

/// Columns of table A-3: base, and how the sixteen rows read.
enum Column {
    Offset(u16, i16),
    Before(u16),
    After(u16),
    Mixed(u16, u16),
}

/// The sixteen columns of the table; PC is $4000 plus the length.
fn columns() -> [Column; 16] {
    use Column::{After, Before, Mixed, Offset};
    [
        Offset(X, 0),
        Offset(X, -16),
        Before(X),
        After(X),
        Offset(Y, 0),
        Offset(Y, -16),
        Before(Y),
        After(Y),
        Offset(SP, 0),
        Offset(SP, -16),
        Before(SP),
        After(SP),
        Offset(0x4002, 0),
        Offset(0x4002, -16),
        Mixed(X, Y),
        Mixed(SP, 0x4002),
    ]
}

/// Rows of a stepping column: +1 to +8, then -8 to -1.
fn step(row: i16) -> i16 {
    if row < 8 {
        row + 1
    } else {
        row - 16
    }
}

/// Sum of the three registers that can step.
fn bases(cpu: &Cpu) -> u16 {
    cpu.x.wrapping_add(cpu.y).wrapping_add(cpu.sp)
}

/// Checks LDAA with a postbyte: which address it reads and how far a base moves.
fn check(postbyte: u8, extension: &[u8], address: u16, moved: i16) {
    let mut bench = bench(&[&[0xA6, postbyte], extension].concat());
    // -1,PC and -2,PC read the instruction itself.
    if !(0x4000..0x4002).contains(&address) {
        bench.put(address, &[0x5A]);
    }
    let expected = bench.byte(address);
    let before = bases(&bench.cpu);
    bench.step();
    assert_eq!(bench.cpu.a, expected, "postbyte {:02X}", postbyte);
    let after = bases(&bench.cpu);
    assert_eq!(after.wrapping_sub(before) as i16, moved, "postbyte {:02X}", postbyte);
}

/// A mixed column: eight rows for each of two bases.
fn check_mixed(postbyte: u8, base: u16) {
    let pc_shift = |length: u16| if base == 0x4002 { length - 2 } else { 0 };
    match postbyte & 7 {
        0 => check(postbyte, &[0x90], base + pc_shift(3) + 0x90, 0),
        1 => check(postbyte, &[0x90], base + pc_shift(3) - 0x70, 0),
        2 => check(postbyte, &[0x12, 0x34], base + pc_shift(4) + 0x1234, 0),
        4 => check(postbyte, &[], base + 0x01, 0),
        5 => check(postbyte, &[], base + 0x23, 0),
        6 => check(postbyte, &[], base + D, 0),
        3 => check_pointer(postbyte, &[0x12, 0x34], base + pc_shift(4) + 0x1234),
        _ => check_pointer(postbyte, &[], base + D),
    }
}

fn check_pointer(postbyte: u8, extension: &[u8], pointer: u16) {
    let mut bench = bench(&[&[0xA6, postbyte], extension].concat());
    bench.put(pointer, &[0x77, 0x88]);
    bench.put(0x7788, &[0x5A]);
    assert_eq!(bench.step(), 6);
    assert_eq!(bench.cpu.a, 0x5A, "postbyte {:02X}", postbyte);
}

#[test]
fn all_256_indexed_postbytes() {
    for (high, column) in columns().iter().enumerate() {
        for row in 0..16 {
            let postbyte = (high as u8) << 4 | row as u8;
            match *column {
                Column::Offset(base, first) => {
                    check(postbyte, &[], base.wrapping_add((first + row) as u16), 0)
                }
                Column::Before(base) => {
                    check(postbyte, &[], base.wrapping_add(step(row) as u16), step(row))
                }
                Column::After(base) => check(postbyte, &[], base, step(row)),
                Column::Mixed(first, second) => {
                    check_mixed(postbyte, if row < 8 { first } else { second })
                }
            }
        }
    }
}

#[test]
fn a_base_that_is_also_the_operand_is_updated_first() {
    // STX 2,X+ stores the new X at the old address.
    let mut b = bench(&[0x6E, 0x31]);
    b.step();
    assert_eq!((b.word(X), b.cpu.x), (X + 2, X + 2));
    // STS 2,-SP stores the new SP.
    let mut b = bench(&[0x6F, 0xAE]);
    b.step();
    assert_eq!((b.word(SP - 2), b.cpu.sp), (SP - 2, SP - 2));
    // CPX 2,X+ compares the new X.
    let mut b = bench(&[0xAE, 0x31]);
    b.put(X, &[0x10, 0x02]);
    b.step();
    assert_eq!(b.nzvc(), 0x04);
    // LDX 2,X+ keeps what it loads.
    let mut b = bench(&[0xEE, 0x31]);
    b.put(X, &[0xAB, 0xCD]);
    b.step();
    assert_eq!(b.cpu.x, 0xABCD);
    // LEAX 1,X+ leaves X, LEAX 1,+X shows the step.
    let mut b = bench(&[0x1A, 0x30, 0x1A, 0x20]);
    b.step();
    assert_eq!(b.cpu.x, X);
    b.step();
    assert_eq!(b.cpu.x, X + 1);
}

#[test]
fn jsr_with_sp_as_its_base_pushes_from_the_stepped_sp() {
    let mut b = bench(&[0x15, 0xB3]);
    b.step();
    assert_eq!((b.cpu.pc, b.cpu.sp, b.word(SP + 2)), (SP, SP + 2, 0x4002));
    // The pointer of JSR [D,SP] is read before the push.
    let mut b = bench(&[0x15, 0xF7]);
    b.cpu.set_d(0xFFFE);
    b.put(SP - 2, &[0x66, 0x55]);
    assert_eq!(b.step(), 7);
    assert_eq!((b.cpu.pc, b.word(SP - 2)), (0x6655, 0x4002));
}

#[test]
fn both_steps_of_a_move_on_one_register() {
    // MOVW 2,X+,2,X+: the destination starts from the updated register.
    let mut b = bench(&[0x18, 0x02, 0x31, 0x31]);
    b.put(X, &[0xBE, 0xEF]);
    b.step();
    assert_eq!((b.word(X + 2), b.cpu.x), (0xBEEF, X + 4));
    // MOVB 1,X-,1,+X ends where it began.
    let mut b = bench(&[0x18, 0x0A, 0x3F, 0x20]);
    b.put(X, &[0x44]);
    b.step();
    assert_eq!((b.byte(X), b.cpu.x), (0x44, X));
}

#[test]
fn pc_as_the_base_of_every_move() {
    // MOVB #$77,0,PC: +1.
    let mut b = bench(&[0x18, 0x08, 0xC0, 0x77]);
    b.step();
    assert_eq!(b.byte(0x4004 + 1), 0x77);
    // MOVW #$7788,0,PC: +2.
    let mut b = bench(&[0x18, 0x00, 0xC0, 0x77, 0x88]);
    b.step();
    assert_eq!(b.word(0x4005 + 2), 0x7788);
    // MOVW $1000,0,PC: +2.
    let mut b = bench(&[0x18, 0x01, 0xC0, 0x10, 0x00]);
    b.put(0x1000, &[0x12, 0x34]);
    b.step();
    assert_eq!(b.word(0x4005 + 2), 0x1234);
    // MOVB and MOVW 4,PC,$1000: -2.
    let mut b = bench(&[0x18, 0x0D, 0xC4, 0x10, 0x00]);
    b.put(0x4005 - 2 + 4, &[0x99]);
    b.step();
    assert_eq!(b.byte(0x1000), 0x99);
    let mut b = bench(&[0x18, 0x05, 0xC4, 0x10, 0x00]);
    b.put(0x4005 - 2 + 4, &[0x99, 0xAA]);
    b.step();
    assert_eq!(b.word(0x1000), 0x99AA);
    // MOVB and MOVW 4,PC,8,PC: -1 and +1. B,PC is corrected alike.
    let mut b = bench(&[0x18, 0x0A, 0xC4, 0xC8]);
    b.put(0x4004 - 1 + 4, &[0x5C]);
    b.step();
    assert_eq!(b.byte(0x4004 + 1 + 8), 0x5C);
    let mut b = bench(&[0x18, 0x02, 0xC4, 0xFD]);
    b.put(0x4004 - 1 + 4, &[0x5C, 0x6D]);
    b.step();
    assert_eq!(b.word(0x4004 + 1 + 0x23), 0x5C6D);
}

#[test]
fn moves_and_the_place_of_their_bytes() {
    // IMM-EXT, EXT-EXT and IMM-IDX of both widths.
    let mut b = bench(&[0x18, 0x0B, 0x5A, 0x12, 0x34]);
    assert_eq!((b.step(), b.byte(0x1234)), (4, 0x5A));
    let mut b = bench(&[0x18, 0x03, 0x5A, 0xA5, 0x12, 0x34]);
    assert_eq!((b.step(), b.word(0x1234)), (5, 0x5AA5));
    let mut b = bench(&[0x18, 0x0C, 0x20, 0x00, 0x12, 0x34]);
    b.put(0x2000, &[0x77]);
    assert_eq!((b.step(), b.byte(0x1234)), (6, 0x77));
    let mut b = bench(&[0x18, 0x04, 0x20, 0x00, 0x12, 0x34]);
    b.put(0x2000, &[0x77, 0x88]);
    assert_eq!((b.step(), b.word(0x1234)), (6, 0x7788));
    let mut b = bench(&[0x18, 0x08, 0x01, 0x5A]);
    assert_eq!((b.step(), b.byte(X + 1)), (4, 0x5A));
    let mut b = bench(&[0x18, 0x00, 0x01, 0x5A, 0xA5]);
    assert_eq!((b.step(), b.word(X + 1)), (4, 0x5AA5));
    // A word that overlaps itself is read whole before it is written.
    let mut b = bench(&[0x18, 0x04, 0x20, 0x00, 0x20, 0x01]);
    b.put(0x2000, &[0x11, 0x22, 0x33]);
    b.step();
    assert_eq!(b.memory[0x2000..0x2003], [0x11, 0x11, 0x22]);
}

/// Registers that tell every transfer from every other.
fn before_transfer(cpu: &mut Cpu) {
    (cpu.a, cpu.b, cpu.x, cpu.y, cpu.sp) = (0x81, 0x72, 0x1390, 0x2455, 0x3566);
    cpu.ccr = 0xC7;
}

fn register(cpu: &Cpu, code: u8) -> u16 {
    match code {
        0 => u16::from(cpu.a),
        1 => u16::from(cpu.b),
        2 => u16::from(cpu.ccr),
        4 => cpu.d(),
        5 => cpu.x,
        6 => cpu.y,
        _ => cpu.sp,
    }
}

fn tfr(postbyte: u8) -> (Cpu, Cpu) {
    let mut start = Cpu::default();
    before_transfer(&mut start);
    (start, after(&[0xB7, postbyte], before_transfer))
}

#[test]
fn all_transfers() {
    for from in [0, 1, 2, 4, 5, 6, 7] {
        for to in [0, 1, 2, 4, 5, 6, 7] {
            for ignored in [0, 8] {
                let (start, end) = tfr(from << 4 | ignored | to);
                let value = register(&start, from);
                let expected = match (from < 3, to < 3) {
                    (true, false) => value as u8 as i8 as u16,
                    (false, true) => value & 0xFF,
                    _ => value,
                };
                assert_eq!(register(&end, to), expected, "TFR {} to {}", from, to);
                if to != 2 {
                    assert_eq!(end.ccr, start.ccr);
                }
            }
        }
    }
}

#[test]
fn exchanges_of_equal_size() {
    for (postbyte, first, second) in [
        (0x81, 0, 1),
        (0x90, 1, 0),
        (0xC5, 4, 5),
        (0xC6, 4, 6),
        (0xC7, 4, 7),
        (0xD6, 5, 6),
        (0xF5, 7, 5),
    ] {
        let (start, end) = tfr(postbyte);
        assert_eq!(register(&end, first), register(&start, second));
        assert_eq!(register(&end, second), register(&start, first));
        assert_eq!(end.ccr, start.ccr);
    }
    let (start, end) = tfr(0x82);
    assert_eq!((end.a, end.ccr), (start.ccr, 0x81));
    for postbyte in [0x80, 0x91, 0xA2, 0xC4, 0xD5, 0xE6, 0xF7] {
        let (mut start, end) = tfr(postbyte);
        (start.pc, start.clock) = (end.pc, end.clock);
        assert_eq!(end, start, "{:02X}", postbyte);
    }
}

#[test]
fn exchanges_of_different_size() {
    // The 8-bit register first: $00:r1 to r2, low byte of r2 to r1.
    let (_, end) = tfr(0x85);
    assert_eq!((end.x, end.a), (0x0081, 0x90));
    let (_, end) = tfr(0x96);
    assert_eq!((end.y, end.b), (0x0072, 0x55));
    let (_, end) = tfr(0xA7);
    assert_eq!((end.sp, end.ccr), (0x00C7, 0x66));
    // The 16-bit register first: $00:A, but $FF:B and $FF:CCR come back.
    let (_, end) = tfr(0xD0);
    assert_eq!((end.x, end.a), (0x0081, 0x90));
    let (_, end) = tfr(0xE1);
    assert_eq!((end.y, end.b), (0xFF72, 0x55));
    let (_, end) = tfr(0xF2);
    assert_eq!((end.sp, end.ccr), (0xFFC7, 0x66));
}

#[test]
fn exchanges_of_d_with_its_halves_and_the_ccr() {
    assert_eq!(tfr(0xC0).1.d(), 0x7281);
    assert_eq!(tfr(0xC1).1.d(), 0xFF72);
    assert_eq!(tfr(0x84).1.d(), 0x0081);
    assert_eq!(tfr(0x94).1.d(), 0x0072);
    let (_, end) = tfr(0xA4);
    assert_eq!((end.d(), end.ccr), (0x00C7, 0x72));
    let (_, end) = tfr(0xC2);
    assert_eq!((end.d(), end.ccr), (0xFFC7, 0x72));
}

#[test]
fn no_way_of_writing_the_ccr_sets_x() {
    let ways: [&[u8]; 9] = [
        &[0x14, 0xFF],
        &[0xB7, 0x02],
        &[0xB7, 0x12],
        &[0xB7, 0x42],
        &[0xB7, 0x52],
        &[0xB7, 0x82],
        &[0xB7, 0xA5],
        &[0x38],
        &[0x0B],
    ];
    for way in ways {
        for (before, expected) in [(0x00, 0xBF), (0x40, 0xFF)] {
            let mut bench = Bench::with(way);
            bench.cpu = Cpu { a: 0xFF, b: 0xFF, x: 0xFFFF, ccr: before, ..bench.cpu };
            bench.put(0x2000, &[0xFF]);
            bench.step();
            assert_eq!(bench.cpu.ccr, expected, "{:02X?}", way);
        }
    }
    // X can be cleared by all of them but ORCC.
    for way in &ways[1..] {
        let mut bench = Bench::with(way);
        bench.cpu = Cpu { ccr: 0xFF, ..bench.cpu };
        bench.step();
        assert_eq!(bench.cpu.ccr, 0x00, "{:02X?}", way);
    }
}

/// The loop primitives by bits 7 to 5: amount, and whether zero branches.
const LOOPS: [(u16, bool); 6] =
    [(0xFFFF, true), (0xFFFF, false), (0, true), (0, false), (1, true), (1, false)];

#[test]
fn all_loop_postbytes() {
    for postbyte in 0..=255u8 {
        let (kind, counter) = (usize::from(postbyte >> 5), postbyte & 7);
        for value in [0u16, 1, 0x0100, 0xFFFF, 0x00FF] {
            let mut bench = Bench::with(&[0x04, postbyte, 0x10]);
            bench.cpu =
                Cpu { a: value as u8, b: value as u8, x: value, y: value, sp: value, ..bench.cpu };
            if counter == 4 {
                bench.cpu.set_d(value);
            }
            let outcome = bench.try_step(0);
            if kind > 5 || counter == 2 || counter == 3 {
                assert_eq!((outcome.reply, outcome.cycles), (Reply::Reserved, 0));
                assert_eq!(bench.cpu.pc, 0x4000);
                continue;
            }
            let wide = counter >= 4;
            let (amount, on_zero) = LOOPS[kind];
            let sum = value.wrapping_add(amount);
            let sum = if wide { sum } else { sum & 0xFF };
            let offset = if postbyte & 0x10 == 0 { 0x0010 } else { 0xFF10 };
            let target =
                if (sum == 0) == on_zero { 0x4003u16.wrapping_add(offset) } else { 0x4003 };
            assert_eq!(
                (register(&bench.cpu, counter), bench.cpu.pc),
                (sum, target),
                "{:02X}",
                postbyte
            );
            assert_eq!((outcome.cycles, bench.cpu.ccr), (3, 0xD0));
        }
    }
}

#[test]
fn reserved_transfer_postbytes() {
    for postbyte in 0..=255u8 {
        let reserved = postbyte >> 4 & 7 == 3 || postbyte & 7 == 3;
        let reply = Bench::with(&[0xB7, postbyte]).try_step(0).reply;
        assert_eq!(reply == Reply::Reserved, reserved, "{:02X}", postbyte);
    }
}

/// Which of the five forms a postbyte has, by the bit patterns of docs/MACHINE.md, "Addresses".
fn form_of(postbyte: u8) -> usize {
    if postbyte & 0xE0 != 0xE0 {
        return 0;
    }
    [1, 1, 2, 4, 0, 0, 0, 3][usize::from(postbyte & 7)]
}

#[test]
fn reserved_indexed_postbytes() {
    let all: &[usize] = &[0, 1, 2, 3, 4];
    let direct: &[usize] = &[0, 1, 2];
    let plain: &[usize] = &[0];
    let cells: [(&[u8], &[usize]); 17] = [
        (&[0xA6], all),
        (&[0x6A], all),
        (&[0x05], all),
        (&[0x15], all),
        (&[0x62], all),
        (&[0x18, 0x18], all),
        (&[0x18, 0x1F], all),
        (&[0x19], direct),
        (&[0x1A], direct),
        (&[0x1B], direct),
        (&[0x0C], direct),
        (&[0x0F], direct),
        (&[0x18, 0x08], plain),
        (&[0x18, 0x01], plain),
        (&[0x18, 0x0D], plain),
        (&[0x18, 0x3D], plain),
        (&[0x18, 0x3F], plain),
    ];
    for (opcode, allowed) in cells {
        for postbyte in 0..=255 {
            let mut bench = Bench::with(&[opcode, &[postbyte]].concat());
            let reply = bench.try_step(0).reply;
            let expected =
                if allowed.contains(&form_of(postbyte)) { Reply::Done } else { Reply::Reserved };
            assert_eq!(reply, expected, "{:02X?} {:02X}", opcode, postbyte);
        }
    }
}

#[test]
fn either_postbyte_of_a_double_move_may_be_reserved() {
    for opcode in [0x0A, 0x02] {
        for (first, second) in [(0x00, 0xE0), (0xE3, 0x00), (0xFF, 0xFF)] {
            let mut bench = Bench::with(&[0x18, opcode, first, second]);
            assert_eq!(bench.try_step(0).reply, Reply::Reserved);
        }
        assert_eq!(Bench::with(&[0x18, opcode, 0x00, 0xE6]).try_step(0).reply, Reply::Done);
    }
}
