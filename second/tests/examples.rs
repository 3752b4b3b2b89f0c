//! The worked examples that the manual prints (002; listed in docs/EXAMPLES.md).

mod common;

use common::{after, Bench};
use second::machine::Reply;

#[test]
fn p3_2_inherent_nop_and_inx() {
    let mut bench = Bench::with(&[0xA7, 0x08]);
    bench.cpu.x = 0x00FF;
    bench.step();
    assert_eq!((bench.cpu.pc, bench.cpu.x), (0x4001, 0x00FF));
    bench.step();
    assert_eq!((bench.cpu.pc, bench.cpu.x), (0x4002, 0x0100));
}

#[test]
fn p3_2_immediate_against_direct() {
    // LDAA #$55 loads the number, LDAA $55 what lies at $0055.
    let mut bench = Bench::with(&[0x86, 0x55, 0x96, 0x55]);
    bench.put(0x0055, &[0x99]);
    bench.step();
    assert_eq!(bench.cpu.a, 0x55);
    bench.step();
    assert_eq!(bench.cpu.a, 0x99);
}

#[test]
fn p3_2_immediate_words() {
    // LDX #$1234 and LDY #$67, which the assembler widens to $0067.
    let mut bench = Bench::with(&[0xCE, 0x12, 0x34, 0xCD, 0x00, 0x67]);
    bench.steps(2);
    assert_eq!((bench.cpu.x, bench.cpu.y), (0x1234, 0x0067));
}

#[test]
fn p3_2_brset_with_three_modes() {
    // BRSET FOO,#$03,THERE: extended, immediate and relative in one instruction.
    for (byte, target) in [(0x03, 0x4005 + 0x20), (0xFF, 0x4005 + 0x20), (0x01, 0x4005)] {
        let mut bench = Bench::with(&[0x1E, 0x12, 0x34, 0x03, 0x20]);
        bench.put(0x1234, &[byte]);
        bench.step();
        assert_eq!(bench.cpu.pc, target);
    }
}

#[test]
fn p3_3_direct_byte_and_word() {
    // LDAA $55 reads $0055, LDX $20 reads $0020 and $0021.
    let mut bench = Bench::with(&[0x96, 0x55, 0xDE, 0x20]);
    bench.put(0x0055, &[0x77]);
    bench.put(0x0020, &[0x12, 0x34]);
    bench.steps(2);
    assert_eq!((bench.cpu.a, bench.cpu.x), (0x77, 0x1234));
}

#[test]
fn p3_3_extended() {
    let mut bench = Bench::with(&[0xB6, 0xF0, 0x3B]);
    bench.put(0xF03B, &[0x42]);
    bench.step();
    assert_eq!(bench.cpu.a, 0x42);
}

#[test]
fn p3_4_offsets_that_loop() {
    // BRA with $FE and LBRA with $FFFC come back to themselves.
    let mut bench = Bench::with(&[0x20, 0xFE]);
    bench.steps(3);
    assert_eq!(bench.cpu.pc, 0x4000);
    let mut bench = Bench::with(&[0x18, 0x20, 0xFF, 0xFC]);
    bench.steps(3);
    assert_eq!(bench.cpu.pc, 0x4000);
}

#[test]
fn p3_4_the_ends_of_the_offsets() {
    assert_eq!(after(&[0x20, 0x80], |_| {}).pc, 0x4002 - 128);
    assert_eq!(after(&[0x20, 0x7F], |_| {}).pc, 0x4002 + 127);
    assert_eq!(after(&[0x18, 0x20, 0x80, 0x00], |_| {}).pc, 0xC004);
    assert_eq!(after(&[0x18, 0x20, 0x7F, 0xFF], |_| {}).pc, 0xC003);
    assert_eq!(after(&[0x20, 0x00], |_| {}).pc, 0x4002);
}

#[test]
fn p3_4_a_bit_branch_that_waits() {
    // BRCLR 0,X,mask with $FC is at its own opcode again as long as the bits are clear.
    let mut bench = Bench::with(&[0x0F, 0x00, 0x81, 0xFC]);
    bench.cpu.x = 0x1000;
    bench.steps(2);
    assert_eq!(bench.cpu.pc, 0x4000);
    bench.put(0x1000, &[0x80]);
    bench.step();
    assert_eq!(bench.cpu.pc, 0x4004);
}

#[test]
fn p3_6_five_bit_offsets() {
    // LDAA 0,X and STAB -8,Y with X = $1000 and Y = $2000.
    let mut bench = Bench::with(&[0xA6, 0x00, 0x6B, 0x58]);
    (bench.cpu.x, bench.cpu.y, bench.cpu.b) = (0x1000, 0x2000, 0x66);
    bench.put(0x1000, &[0x55]);
    bench.steps(2);
    assert_eq!((bench.cpu.a, bench.byte(0x1FF8)), (0x55, 0x66));
    assert_eq!((bench.cpu.x, bench.cpu.y), (0x1000, 0x2000));
}

#[test]
fn p3_7_nine_bit_offsets() {
    // LDAA $FF,X reads $10FF, LDAB -20,Y reads $1FEC.
    let mut bench = Bench::with(&[0xA6, 0xE0, 0xFF, 0xE6, 0xE9, 0xEC]);
    (bench.cpu.x, bench.cpu.y) = (0x1000, 0x2000);
    bench.put(0x10FF, &[0x11]);
    bench.put(0x1FEC, &[0x22]);
    bench.steps(2);
    assert_eq!((bench.cpu.a, bench.cpu.b), (0x11, 0x22));
    assert_eq!((bench.cpu.x, bench.cpu.y), (0x1000, 0x2000));
}

#[test]
fn p3_7_sixteen_bit_offset_of_ffff() {
    // $FFFF may be read as 65,535 or as -1.
    assert_eq!(after(&[0x1A, 0xE2, 0xFF, 0xFF], |cpu| cpu.x = 0x1000).x, 0x0FFF);
}

#[test]
fn p3_7_sixteen_bit_indirect() {
    // LDAA [10,X] with X = $1000 and the pointer $2000 at $100A.
    let mut bench = Bench::with(&[0xA6, 0xE3, 0x00, 0x0A]);
    bench.cpu.x = 0x1000;
    bench.put(0x100A, &[0x20, 0x00]);
    bench.put(0x2000, &[0x5A]);
    assert_eq!(bench.step(), 6);
    assert_eq!((bench.cpu.a, bench.cpu.x), (0x5A, 0x1000));
}

#[test]
fn p3_8_steps_that_push_and_pull() {
    // STAA 1,-SP is PSHA, STX 2,-SP is PSHX, LDX 2,SP+ is PULX, LDAA 1,SP+ is PULA.
    let pairs: [(&[u8], u8); 4] = [
        (&[0x6A, 0xAF], 0x36),
        (&[0x6E, 0xAE], 0x34),
        (&[0xEE, 0xB1], 0x30),
        (&[0xA6, 0xB0], 0x32),
    ];
    for (indexed, inherent) in pairs {
        let mut one = Bench::with(indexed);
        let mut other = Bench::with(&[inherent]);
        for bench in [&mut one, &mut other] {
            (bench.cpu.a, bench.cpu.x) = (0x12, 0x3456);
            bench.put(0x2000, &[0x78, 0x9A]);
            bench.step();
        }
        assert_eq!((one.cpu.a, one.cpu.x, one.cpu.sp), (other.cpu.a, other.cpu.x, other.cpu.sp));
        assert_eq!(one.memory[0x1F00..0x2100], other.memory[0x1F00..0x2100]);
    }
}

#[test]
fn p3_8_move_with_two_steps() {
    // MOVW 2,X+,4,+Y: the source steps afterwards, the destination before.
    let mut bench = Bench::with(&[0x18, 0x02, 0x31, 0x63]);
    (bench.cpu.x, bench.cpu.y) = (0x1000, 0x2000);
    bench.put(0x1000, &[0xBE, 0xEF]);
    bench.step();
    assert_eq!(bench.word(0x2004), 0xBEEF);
    assert_eq!((bench.cpu.x, bench.cpu.y), (0x1002, 0x2004));
}

#[test]
fn p3_9_accumulator_offset_changes_no_register() {
    // LDAA B,X against ABX, LDAA 0,X.
    let mut one = Bench::with(&[0xA6, 0xE5]);
    let mut two = Bench::with(&[0x1A, 0xE5, 0xA6, 0x00]);
    for bench in [&mut one, &mut two] {
        (bench.cpu.b, bench.cpu.x) = (0xF0, 0x1000);
        bench.put(0x10F0, &[0x3C]);
    }
    one.step();
    two.steps(2);
    assert_eq!((one.cpu.a, one.cpu.b, one.cpu.x), (0x3C, 0xF0, 0x1000));
    assert_eq!((two.cpu.a, two.cpu.b, two.cpu.x), (0x3C, 0xF0, 0x10F0));
}

#[test]
fn p3_9_computed_goto() {
    // JMP [D,PC] with the table of pointers right behind it.
    for (d, place) in [(0, 0x5000), (2, 0x6000), (4, 0x7000)] {
        let mut bench = Bench::with(&[0x05, 0xFF, 0x50, 0x00, 0x60, 0x00, 0x70, 0x00]);
        bench.cpu.set_d(d);
        bench.step();
        assert_eq!(bench.cpu.pc, place);
    }
}

#[test]
fn p3_10_move_with_pc() {
    // MOVB $2000,2,PC at $1000 moves to $1009; the corrected code C0 moves to $1007.
    for (postbyte, target) in [(0xC2, 0x1009), (0xC0, 0x1007)] {
        let mut bench = Bench::with(&[]);
        bench.cpu.pc = 0x1000;
        bench.put(0x1000, &[0x18, 0x09, postbyte, 0x20, 0x00]);
        bench.put(0x2000, &[0x77]);
        assert_eq!(bench.step(), 5);
        assert_eq!((bench.byte(target), bench.cpu.pc), (0x77, 0x1005));
    }
}

#[test]
fn p6_170_shift_of_24_bits_to_the_left() {
    // ASL LOW, ROL MID, ROL HIGH (002 p. 6-170 to 6-172).
    let mut bench = Bench::with(&[0x78, 0x10, 0x02, 0x75, 0x10, 0x01, 0x75, 0x10, 0x00]);
    bench.put(0x1000, &[0xA1, 0x80, 0xC3]);
    bench.steps(3);
    assert_eq!(bench.memory[0x1000..0x1003], [0x43, 0x01, 0x86]);
    assert_eq!(bench.cpu.ccr & 1, 1);
}

#[test]
fn p6_173_shift_of_24_bits_to_the_right() {
    // LSR HIGH, ROR MID, ROR LOW (002 p. 6-173 to 6-175).
    let mut bench = Bench::with(&[0x74, 0x10, 0x00, 0x76, 0x10, 0x01, 0x76, 0x10, 0x02]);
    bench.put(0x1000, &[0xA1, 0x80, 0xC3]);
    bench.steps(3);
    assert_eq!(bench.memory[0x1000..0x1003], [0x50, 0xC0, 0x61]);
    assert_eq!(bench.cpu.ccr & 1, 1);
}

#[test]
fn p6_95_the_one_overflow_of_idivs() {
    let cpu = after(&[0x18, 0x15], |cpu| {
        cpu.set_d(0x8000);
        cpu.x = 0xFFFF;
        cpu.ccr = 0x01;
    });
    assert_eq!(cpu.ccr & 0x03, 0x02);
}

#[test]
fn p6_91_fractions_of_fdiv() {
    // $0001 is the smallest fraction. $FFFE is the largest that a division gives, since
    // $FFFF comes only from an overflow.
    let cpu = after(&[0x18, 0x11], |cpu| {
        cpu.set_d(1);
        cpu.x = 0xFFFF;
    });
    assert_eq!((cpu.x, cpu.d()), (0x0001, 0x0001));
    let cpu = after(&[0x18, 0x11], |cpu| {
        cpu.set_d(0xFFFE);
        cpu.x = 0xFFFF;
    });
    assert_eq!((cpu.x, cpu.d()), (0xFFFE, 0xFFFE));
    // The rest of an IDIV becomes a fraction by FDIV: 10 / 4 = 2.5.
    let mut bench = Bench::with(&[0x18, 0x10, 0xCE, 0x00, 0x04, 0x18, 0x11]);
    bench.cpu.set_d(10);
    bench.cpu.x = 4;
    bench.step();
    assert_eq!((bench.cpu.x, bench.cpu.d()), (2, 2));
    bench.steps(2);
    assert_eq!((bench.cpu.x, bench.cpu.d()), (0x8000, 0));
}

#[test]
fn p6_46_and_p6_119_branches_that_do_nothing() {
    // BRN is a NOP of two bytes and one cycle, LBRN one of four bytes and three cycles.
    let mut bench = Bench::with(&[0x21, 0x55, 0x18, 0x21, 0x55, 0x55]);
    assert_eq!((bench.step(), bench.cpu.pc), (1, 0x4002));
    assert_eq!((bench.step(), bench.cpu.pc), (3, 0x4006));
}

#[test]
fn p6_146_rounding_a_product() {
    // MUL, ADCA #0: $10 x $08 = $0080, which rounds to $01.
    let mut bench = Bench::with(&[0x12, 0x89, 0x00]);
    bench.cpu.set_d(0x1008);
    bench.steps(2);
    assert_eq!(bench.cpu.a, 0x01);
}

#[test]
fn p6_147_negating_80_leaves_it() {
    let cpu = after(&[0x40], |cpu| {
        cpu.a = 0x80;
        cpu.ccr = 0;
    });
    assert_eq!((cpu.a, cpu.ccr), (0x80, 0x0B));
}

#[test]
fn p6_185_sex_changes_a_only_for_d() {
    let cpu = after(&[0xB7, 0x04], |cpu| cpu.set_d(0x8012));
    assert_eq!(cpu.d(), 0xFF80);
    let cpu = after(&[0xB7, 0x05], |cpu| cpu.set_d(0x8012));
    assert_eq!((cpu.x, cpu.d()), (0xFF80, 0x8012));
    let cpu = after(&[0xB7, 0x16], |cpu| cpu.set_d(0x807F));
    assert_eq!((cpu.y, cpu.d()), (0x007F, 0x807F));
}

#[test]
fn p7_4_clearing_x_by_andcc() {
    // ANDCC #$BF lets XIRQ in; after the entry X and I are set; RTI restores them, once the
    // line has fallen.
    let mut bench = Bench::with(&[0x10, 0xBF, 0xA7]);
    bench.put(0xFFF4, &[0x50, 0x00]);
    bench.put(0x5000, &[0x0B]);
    bench.step_under(1);
    assert_eq!((bench.cpu.pc, bench.cpu.ccr), (0x4002, 0x90));
    assert_eq!(bench.step_under(1), 9);
    assert_eq!((bench.cpu.pc, bench.cpu.ccr), (0x5000, 0xD0));
    assert_eq!(bench.step(), 8);
    assert_eq!((bench.cpu.pc, bench.cpu.ccr, bench.cpu.sp), (0x4002, 0x90, 0x2000));
}

#[test]
fn p7_5_rti_with_another_interrupt_pending() {
    // SP = SP - 9 and the new vector, in 10 cycles; else 8 and the return address.
    for (lines, cycles, pc, sp) in [(0, 8, 0x6000, 0x2009), (2, 10, 0x5000, 0x2000)] {
        let mut bench = Bench::with(&[0x0B]);
        bench.put(0x2000, &[0xC0, 1, 2, 3, 4, 5, 6, 0x60, 0x00]);
        bench.put(0xFFF2, &[0x50, 0x00]);
        assert_eq!(bench.step_under(lines), cycles);
        assert_eq!((bench.cpu.pc, bench.cpu.sp), (pc, sp));
        assert_eq!((bench.cpu.d(), bench.cpu.x, bench.cpu.y), (0x0201, 0x0304, 0x0506));
    }
}

#[test]
fn p7_5_the_unused_opcodes_of_page_2() {
    let traps = (0..=255).filter(|&opcode| {
        second::opcodes::cell_at(2, opcode).operation == second::glossary::Operation::TRAP
    });
    assert_eq!(traps.count(), 202);
    // The stacked address lets software find the opcode that trapped.
    let mut bench = Bench::with(&[0x18, 0xAB]);
    bench.step();
    assert_eq!(bench.byte(bench.word(0x1FFE).wrapping_sub(1)), 0xAB);
}

#[test]
fn p9_27_table_of_equal_segments() {
    // LDX #TBL_START, LDD DATA_IN, TBL A,X: A is the segment, B the part of it.
    let mut bench = Bench::with(&[0xCE, 0x10, 0x00, 0xFC, 0x20, 0x00, 0x18, 0x3D, 0xE4]);
    bench.put(0x1000, &[0, 10, 50, 40]);
    bench.put(0x2000, &[0x01, 0x80]);
    bench.steps(3);
    assert_eq!(bench.cpu.a, 30);
    bench.cpu.pc = 0x4000;
    bench.put(0x2000, &[0x02, 0x40]);
    bench.steps(3);
    assert_eq!(bench.cpu.a, 47);
}

/// Figure 9-12 from the fall-through on: TFR D,X to TBL 2,SP+.
const ENDPOINTS: [u8; 32] = [
    0xB7, 0x45, // TFR D,X
    0x87, // CLRA
    0xE6, 0x40, // LDAB 0,Y
    0xE0, 0x5E, // SUBB -2,Y
    0xB7, 0xC5, // EXG D,X
    0xA0, 0x5E, // SUBA -2,Y
    0xB7, 0x84, // EXG A,D
    0x18, 0x11, // FDIV
    0xB7, 0xC5, // EXG D,X
    0xB7, 0x81, // EXG A,B
    0x97, // TSTA
    0x2A, 0x01, // BPL
    0x52, // INCB
    0xA6, 0x41, // LDAA 1,Y
    0x36, // PSHA
    0xA6, 0x5F, // LDAA -1,Y
    0x36, // PSHA
    0x18, 0x3D, 0xB1, // TBL 2,SP+
];

#[test]
fn p9_28_endpoint_table() {
    // From (16, 0) to (32, 255): a quarter of the way is 63, half of it 127.
    for (x, y) in [(0x10, 0), (0x14, 63), (0x18, 127), (0x1F, 239)] {
        let mut bench = Bench::with(&ENDPOINTS);
        bench.put(0x1000, &[0x10, 0x00, 0x20, 0xFF]);
        bench.cpu.y = 0x1002;
        bench.cpu.a = x;
        while bench.cpu.pc != 0x4000 + 32 {
            bench.step();
        }
        assert_eq!((bench.cpu.a, bench.cpu.sp), (y, 0x2000), "{:X}", x);
    }
}

#[test]
fn p9_29_sixteen_bit_rules() {
    // EMIND 2,X+ for an antecedent, EMAXM 2,X+ for a consequent.
    let mut bench = Bench::with(&[0x18, 0x1B, 0x31, 0x18, 0x1E, 0x31]);
    bench.cpu.set_d(0xFFFF);
    bench.cpu.x = 0x1000;
    bench.put(0x1000, &[0x12, 0x34, 0x00, 0x00]);
    bench.steps(2);
    assert_eq!((bench.cpu.d(), bench.word(0x1002), bench.cpu.x), (0x1234, 0x1234, 0x1004));
}

#[test]
fn b_2_translated_mnemonics() {
    // ABX, ABY, then CLC, CLI, CLV, SEC, SEI, SEV by their effect on the CCR.
    assert_eq!(after(&[0x1A, 0xE5], |cpu| (cpu.b, cpu.x) = (0xFF, 0x1001)).x, 0x1100);
    assert_eq!(after(&[0x19, 0xED], |cpu| (cpu.b, cpu.y) = (0xFF, 0x1001)).y, 0x1100);
    for (mask, cleared) in [(0xFE, 0x01), (0xEF, 0x10), (0xFD, 0x02)] {
        assert_eq!(after(&[0x10, mask], |cpu| cpu.ccr = 0xFF).ccr, 0xFF - cleared);
    }
    for mask in [0x01, 0x10, 0x02] {
        assert_eq!(after(&[0x14, mask], |cpu| cpu.ccr = 0).ccr, mask);
    }
    // DES and INS leave the codes where DEX and INX would set Z.
    let cpu = after(&[0x1B, 0x9F], |cpu| (cpu.sp, cpu.ccr) = (1, 0));
    assert_eq!((cpu.sp, cpu.ccr), (0, 0));
    // TAP, TPA, TSX, TSY, TXS, TYS, XGDX, XGDY.
    let cpu = after(&[0xB7, 0x02], |cpu| (cpu.a, cpu.ccr) = (0x0F, 0x40));
    assert_eq!(cpu.ccr, 0x0F);
    assert_eq!(after(&[0xB7, 0x20], |cpu| cpu.ccr = 0xA5).a, 0xA5);
    assert_eq!(after(&[0xB7, 0x75], |_| {}).x, 0x2000);
    assert_eq!(after(&[0xB7, 0x76], |_| {}).y, 0x2000);
    assert_eq!(after(&[0xB7, 0x57], |cpu| cpu.x = 0x1234).sp, 0x1234);
    assert_eq!(after(&[0xB7, 0x67], |cpu| cpu.y = 0x1234).sp, 0x1234);
    let cpu = after(&[0xB7, 0xC5], |cpu| (cpu.a, cpu.b, cpu.x) = (1, 2, 0x0304));
    assert_eq!((cpu.d(), cpu.x), (0x0304, 0x0102));
    let cpu = after(&[0xB7, 0xC6], |cpu| (cpu.a, cpu.b, cpu.y) = (1, 2, 0x0304));
    assert_eq!((cpu.d(), cpu.y), (0x0304, 0x0102));
}

#[test]
fn b_5_the_stack_points_at_the_last_byte_used() {
    // PULX with SP = $01F0 loads from $01F0 and leaves $01F2.
    let mut bench = Bench::with(&[0x30]);
    bench.cpu.sp = 0x01F0;
    bench.put(0x01F0, &[0x12, 0x34]);
    bench.step();
    assert_eq!((bench.cpu.x, bench.cpu.sp), (0x1234, 0x01F2));
}

#[test]
fn b_8_post_increment() {
    // A6 71 is LDAA 2,Y+.
    let mut bench = Bench::with(&[0xA6, 0x71]);
    bench.cpu.y = 0x1000;
    bench.put(0x1000, &[0x99]);
    bench.step();
    assert_eq!((bench.cpu.a, bench.cpu.y), (0x99, 0x1002));
}

#[test]
fn b_8_accumulator_offset_loop() {
    // LDAB #5, LDX #$1000, then LDAA B,X and DBNE B: six cycles a pass.
    let mut bench =
        Bench::with(&[0xC6, 0x05, 0xCE, 0x10, 0x00, 0xA6, 0xE5, 0x04, 0x31, 0xFB, 0x00]);
    bench.put(0x1000, &[0, 11, 12, 13, 14, 15]);
    let outcome = bench.run(&[], 1_000);
    assert_eq!((outcome.reply, outcome.cycles), (Reply::Stop, 1 + 2 + 5 * 6));
    assert_eq!((bench.cpu.a, bench.cpu.b, bench.cpu.x), (11, 0, 0x1000));
}

#[test]
fn b_13_block_move() {
    // LOOP MOVW 2,X+,2,Y+ ; DBNE B,LOOP.
    let mut bench = Bench::with(&[0x18, 0x02, 0x31, 0x71, 0x04, 0x31, 0xF9, 0x00]);
    let data: Vec<u8> = (1..=20).collect();
    bench.put(0x1000, &data);
    (bench.cpu.x, bench.cpu.y, bench.cpu.b) = (0x1000, 0x1800, 10);
    let outcome = bench.run(&[], 1_000);
    assert_eq!((outcome.reply, outcome.cycles), (Reply::Stop, 10 * 8));
    assert_eq!(bench.memory[0x1800..0x1814], data[..]);
    assert_eq!((bench.cpu.x, bench.cpu.y, bench.cpu.b), (0x1014, 0x1814, 0));
}

#[test]
fn b_14_a_rule_by_min_and_max() {
    // LDY #OUT1, LDX #IN1, LDAA #$FF, four MINA 1,X+, two MAXM 1,Y+.
    let mut code = vec![0xCD, 0x20, 0x00, 0xCE, 0x10, 0x00, 0x86, 0xFF];
    code.extend([0x18, 0x19, 0x30].repeat(4));
    code.extend([0x18, 0x1C, 0x70].repeat(2));
    let mut bench = Bench::with(&code);
    bench.put(0x1000, &[0x90, 0x33, 0x7F, 0x45]);
    bench.put(0x2000, &[0x00, 0x44]);
    bench.steps(9);
    assert_eq!((bench.cpu.a, bench.byte(0x2000), bench.byte(0x2001)), (0x33, 0x33, 0x44));
    assert_eq!((bench.cpu.x, bench.cpu.y), (0x1004, 0x2002));
}

#[test]
fn b_14_limits_by_min_and_max() {
    // MINA HILIMIT,PCR and MAXA LOWLIMIT,PCR keep A from $20 to $7F.
    for (before, now) in [(0x00, 0x20), (0x1F, 0x20), (0x55, 0x55), (0x80, 0x7F), (0xFF, 0x7F)] {
        let mut bench = Bench::with(&[0x18, 0x19, 0xC3, 0x18, 0x18, 0xC1, 0x7F, 0x20]);
        bench.cpu.a = before;
        bench.steps(2);
        assert_eq!(bench.cpu.a, now);
    }
}

#[test]
fn b_16_and_c_2_room_on_the_stack() {
    // LEAS -5,SP, LDX 5,SP+, LEAS -10,S, LEAS 10,S, LDX 8,S+.
    let mut bench = Bench::with(&[0x1B, 0x9B, 0xEE, 0xB4, 0x1B, 0x96, 0x1B, 0x8A, 0xEE, 0xB7]);
    bench.put(0x1FFB, &[0xAB, 0xCD]);
    bench.put(0x2000, &[0x12, 0x34]);
    let ccr = bench.cpu.ccr;
    bench.step();
    assert_eq!((bench.cpu.sp, bench.cpu.ccr), (0x1FFB, ccr));
    bench.step();
    assert_eq!((bench.cpu.x, bench.cpu.sp), (0xABCD, 0x2000));
    bench.step();
    assert_eq!(bench.cpu.sp, 0x1FF6);
    bench.step();
    assert_eq!(bench.cpu.sp, 0x2000);
    bench.step();
    assert_eq!((bench.cpu.x, bench.cpu.sp), (0x1234, 0x2008));
}

#[test]
fn c_2_frame_pointer() {
    // PSHX, TFR S,X, LEAS -4,S, use of a parameter and a local, TFR X,S, PULX.
    let mut bench =
        Bench::with(&[0x34, 0xB7, 0x75, 0x1B, 0x9C, 0xEC, 0x02, 0x6C, 0x1E, 0xB7, 0x57, 0x30]);
    bench.cpu.x = 0x7777;
    bench.put(0x2000, &[0xCA, 0xFE]);
    bench.steps(7);
    assert_eq!((bench.cpu.x, bench.cpu.sp, bench.cpu.d()), (0x7777, 0x2000, 0xCAFE));
    assert_eq!(bench.word(0x1FFC), 0xCAFE);
}
