//! The sixteen rows of the sign bench examples, and the bench's own line.

mod common;

use common::{after, Bench};
use second::cpu::Cpu;
use second::machine::{reset, Record, Reply};

#[test]
fn row_01_reset_takes_the_vector_and_sets_s_x_and_i() {
    let mut memory = vec![0x55; 65_536];
    memory[0xFFFE] = 0x40;
    memory[0xFFFF] = 0x00;
    let (cpu, outcome) = reset(&memory);
    assert_eq!(cpu, Cpu { pc: 0x4000, ccr: 0xD0, ..Cpu::default() });
    assert_eq!((outcome.reply, outcome.cycles), (Reply::Done, 0));
}

#[test]
fn row_02_load_and_add_overflow() {
    let mut bench = Bench::with(&[0x86, 0x7F, 0x8B, 0x01]);
    assert_eq!(bench.steps(2), 2);
    assert_eq!((bench.cpu.a, bench.cpu.ccr), (0x80, 0xFA));
}

/// The effective address that LEAY gives for a postbyte with X = $1000.
fn address_of(code: &[u8]) -> u16 {
    let mut bench = Bench::with(&[&[0x19], code].concat());
    bench.cpu.x = 0x1000;
    bench.step();
    bench.cpu.y
}

#[test]
fn row_03_five_bit_offsets() {
    assert_eq!(address_of(&[0x0F]), 0x1000 + 15);
    assert_eq!(address_of(&[0x10]), 0x1000 - 16);
}

#[test]
fn row_04_steps_before() {
    assert_eq!(address_of(&[0x27]), 0x1000 + 8);
    assert_eq!(address_of(&[0x28]), 0x1000 - 8);
}

#[test]
fn row_05_nine_bit_offsets() {
    assert_eq!(address_of(&[0xE0, 0xFF]), 0x1000 + 255);
    assert_eq!(address_of(&[0xE1, 0x00]), 0x1000 - 256);
}

#[test]
fn row_06_deca_of_80_overflows_and_keeps_c() {
    for carry in [0, 1] {
        let cpu = after(&[0x43], |cpu| {
            cpu.a = 0x80;
            cpu.ccr = 0x0C | carry;
        });
        assert_eq!((cpu.a, cpu.ccr), (0x7F, 0x02 | carry));
    }
}

#[test]
fn row_07_orcc_cannot_set_x() {
    assert_eq!(after(&[0x14, 0xFF], |cpu| cpu.ccr = 0x00).ccr, 0xBF);
}

#[test]
fn row_08_mul_sets_c_from_bit_7() {
    let cpu = after(&[0x12], |cpu| {
        cpu.set_d(0x1008);
        cpu.ccr = 0x0E;
    });
    assert_eq!((cpu.d(), cpu.ccr), (0x0080, 0x0F));
}

#[test]
fn row_09_idiv_by_zero() {
    let cpu = after(&[0x18, 0x10], |cpu| {
        cpu.set_d(0x1234);
        cpu.x = 0;
        cpu.ccr = 0x0E;
    });
    assert_eq!((cpu.x, cpu.d(), cpu.ccr), (0xFFFF, 0x1234, 0x09));
}

#[test]
fn row_10_trap() {
    let mut bench = Bench::with(&[0x18, 0x30]);
    bench.put(0xFFF8, &[0x12, 0x34]);
    assert_eq!(bench.step(), 10);
    assert_eq!((bench.cpu.sp, bench.cpu.pc), (0x1FF7, 0x1234));
    assert_eq!(bench.word(0x1FFE), 0x4002);
}

#[test]
fn row_11_branch_costs() {
    let mut taken = Bench::with(&[0x24, 0xFE]);
    assert_eq!((taken.step(), taken.cpu.pc), (3, 0x4000));
    let mut not_taken = Bench::with(&[0x24, 0xFE]);
    not_taken.cpu.ccr |= 1;
    assert_eq!((not_taken.step(), not_taken.cpu.pc), (1, 0x4002));
}

#[test]
fn row_12_a_word_at_ffff_ends_at_0000() {
    let mut bench = Bench::with(&[0xEE, 0x00]);
    bench.cpu.x = 0xFFFF;
    bench.put(0xFFFF, &[0xAB, 0xCD]);
    bench.step();
    assert_eq!(bench.cpu.x, 0xABCD);
}

#[test]
fn row_13_budget_of_nothing_and_of_one() {
    // A NOP stands after it: a stop opcode would give 4 even with nothing left.
    let mut bench = Bench::with(&[0x86, 0x7F, 0xA7]);
    let before = (bench.cpu, bench.memory.clone());
    let outcome = bench.run(&[], 0);
    assert_eq!((outcome.reply, outcome.cycles), (Reply::Done, 0));
    assert_eq!((bench.cpu, bench.memory.clone()), before);
    let outcome = bench.run(&[], 1);
    assert_eq!((outcome.reply, outcome.cycles, bench.cpu.a), (Reply::Done, 1, 0x7F));
}

#[test]
fn row_14_the_warning_behind_emacs_is_in_time() {
    let mut bench = Bench::with(&[0x18, 0x12, 0x30, 0x00]);
    bench.cpu.ccr = 0x90;
    bench.cpu.clock = 100;
    bench.put(0xFFF4, &[0x50, 0x00]);
    bench.put(0x5000, &[0xA7]);
    let warning = [Record { cycle: 101, lines: 0x01 }];
    let outcome = bench.run(&warning, 22);
    assert_eq!((outcome.reply, outcome.cycles), (Reply::Done, 22));
    assert_eq!((bench.cpu.pc, bench.cpu.clock, bench.cpu.ccr & 0x50), (0x5000, 122, 0x50));
    assert_eq!(bench.word(0x1FFE), 0x4004);
}

#[test]
fn row_15_sixty_four_records_run_and_sixty_five_do_not() {
    let records: Vec<Record> = (0..65).map(|n| Record { cycle: n, lines: 0 }).collect();
    let mut bench = Bench::with(&[0xA7]);
    assert_eq!(bench.run(&records[..64], 1).cycles, 1);
    assert_eq!(bench.run(&records, 1).reply, Reply::WrongSchedule);
}

#[test]
fn row_16_lble_runs_and_rev_stops() {
    let mut branch = Bench::with(&[0x18, 0x2F, 0x00, 0x10]);
    branch.cpu.ccr |= 0x04;
    assert_eq!((branch.step(), branch.cpu.pc), (4, 0x4014));
    let mut stop = Bench::with(&[0x18, 0x3A]);
    assert_eq!(stop.try_step(0).reply, Reply::Stop);
}

#[test]
fn the_line_that_the_bench_prints() {
    let mut image = vec![0; 65_536];
    image[0x4000..0x4005].copy_from_slice(&[0x86, 0x7F, 0x8B, 0x01, 0x00]);
    image[0xFFFE] = 0x40;
    let line = second::bench::report(&mut image);
    assert_eq!(line, "stop=4 cycles=2 pc=4004 a=80 b=00 x=0000 y=0000 sp=0000 ccr=FA");
}

#[test]
fn the_bench_spends_a_million_cycles_on_an_endless_loop() {
    let mut image = vec![0; 65_536];
    image[0x4000..0x4002].copy_from_slice(&[0x20, 0xFE]);
    image[0xFFFE] = 0x40;
    let line = second::bench::report(&mut image);
    assert_eq!(line, "stop=0 cycles=999999 pc=4000 a=00 b=00 x=0000 y=0000 sp=0000 ccr=D0");
}

#[test]
fn an_image_of_the_wrong_length_gets_reply_1() {
    let expected = "stop=1 cycles=0 pc=0000 a=00 b=00 x=0000 y=0000 sp=0000 ccr=D0";
    for length in [0, 1, 65_535, 65_537] {
        assert_eq!(second::bench::report(&mut vec![0x40; length]), expected);
    }
}
