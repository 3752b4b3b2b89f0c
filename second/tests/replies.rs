//! The replies 0 to 5 and 15, their order, and that a refusal changes nothing.

mod common;

use common::Bench;
use second::cpu::Cpu;
use second::machine::{lines_at, reset, run, step, Record, Reply};

const RISING: [Record; 2] = [Record { cycle: 5, lines: 0 }, Record { cycle: 6, lines: 0 }];
const LEVEL: [Record; 2] = [Record { cycle: 5, lines: 0 }, Record { cycle: 5, lines: 0 }];
const FALLING: [Record; 2] = [Record { cycle: 5, lines: 0 }, Record { cycle: 4, lines: 0 }];

/// Runs on a memory of the given length and checks that nothing changed.
fn refused_run(length: usize, schedule: &[Record], clock: u32, budget: u32) -> u8 {
    let mut memory = vec![0xA7; length];
    let mut cpu = Cpu { a: 1, pc: 0x4000, clock, ..Cpu::default() };
    let before = (cpu, memory.clone());
    let outcome = run(&mut cpu, &mut memory, schedule, budget);
    assert_eq!(outcome.cycles, 0);
    assert_eq!((cpu, memory), before);
    outcome.reply.number()
}

#[test]
fn a_run_is_refused_in_the_order_1_2_3() {
    assert_eq!(refused_run(65_535, &LEVEL, 0, u32::MAX), 1);
    assert_eq!(refused_run(65_537, &RISING, 0, 1), 1);
    assert_eq!(refused_run(0, &[], 0, 1), 1);
    assert_eq!(refused_run(65_536, &LEVEL, 0, u32::MAX), 2);
    assert_eq!(refused_run(65_536, &FALLING, 0, 1), 2);
    assert_eq!(refused_run(65_536, &RISING, 0, 100_000_001), 3);
    assert_eq!(refused_run(65_536, &[], 3_900_000_001, 100_000_000), 3);
    // Without wrapping: the sum of these is far above 32 bits.
    assert_eq!(refused_run(65_536, &[], u32::MAX, 100_000_000), 3);
    assert_eq!(refused_run(65_536, &[], 4_000_000_001, 0), 3);
    assert_eq!(refused_run(65_536, &[], 4_000_000_000, 0), 0);
}

/// Each bit that is no line, both of them, and both among the lines.
const NO_LINES: [u8; 4] = [0x40, 0x80, 0xC0, 0xFF];

/// A schedule that rises by 10 from cycle 5 on, with the line byte 2 in every record but one.
fn with_lines_at(count: usize, place: usize, lines: u8) -> Vec<Record> {
    let lines_of = |n| if n == place { lines } else { 2 };
    (0..count).map(|n| Record { cycle: 5 + 10 * n as u32, lines: lines_of(n) }).collect()
}

#[test]
fn a_run_is_refused_for_a_line_byte_in_any_record() {
    for lines in NO_LINES {
        for count in [1, 2, 3, 63, 64] {
            for place in 0..count {
                let schedule = with_lines_at(count, place, lines);
                // With a budget that ends before the first record too, and from a clock after
                // the last one.
                for (clock, budget) in [(0, 0), (0, 4), (0, 1_000), (100_000, 1)] {
                    assert_eq!(refused_run(65_536, &schedule, clock, budget), 15);
                }
            }
        }
        // A record that no clock value of any run comes to.
        let never = [Record { cycle: u32::MAX, lines }];
        assert_eq!(refused_run(65_536, &never, 0, 1), 15);
    }
}

#[test]
fn bits_0_to_5_in_any_record_are_accepted() {
    for lines in 0..=0x3F {
        let mut bench = Bench::with(&[0xA7, 0xA7, 0xA7]);
        assert_eq!(bench.run(&with_lines_at(64, 63, lines), 2).reply, Reply::Done);
        assert_eq!((bench.cpu.pc, bench.cpu.clock), (0x4002, 2));
    }
}

#[test]
fn reply_15_of_a_run_comes_after_1_and_2_and_before_3() {
    for lines in NO_LINES {
        let rising = with_lines_at(2, 0, lines);
        let level = [rising[0], rising[0]];
        let falling = [rising[1], rising[0]];
        let too_many = with_lines_at(65, 64, lines);
        for (clock, budget) in [(0, 1), (0, u32::MAX), (u32::MAX, 100_000_000)] {
            for length in [0, 65_535, 65_537] {
                assert_eq!(refused_run(length, &rising, clock, budget), 1);
                assert_eq!(refused_run(length, &level, clock, budget), 1);
            }
            for schedule in [&level[..], &falling, &too_many] {
                assert_eq!(refused_run(65_536, schedule, clock, budget), 2);
            }
            assert_eq!(refused_run(65_536, &rising, clock, budget), 15);
        }
        // Without the bits the same runs are refused for their times.
        assert_eq!(refused_run(65_536, &with_lines_at(2, 0, 2), 0, 100_000_001), 3);
        assert_eq!(refused_run(65_536, &rising, 0, 100_000_001), 15);
        assert_eq!(refused_run(65_536, &rising, 4_000_000_000, 1), 15);
    }
}

#[test]
fn reply_15_of_a_step_comes_after_1_and_before_3_4_and_5() {
    for lines in NO_LINES {
        let mut cpu = Cpu { clock: u32::MAX, ..Cpu::default() };
        for length in [0, 65_535, 65_537] {
            let reply = step(&mut cpu, &mut vec![0; length], lines).reply;
            assert_eq!(reply, Reply::WrongMemory);
        }
        // A stop, a reserved postbyte, a NOP, and an idle cycle, within the limit of the clock
        // and past it: without the bits 4, 5, 0, 0 and four times 3.
        let codes =
            [(&[0x00][..], false), (&[0xB7, 0x33], false), (&[0xA7], false), (&[0xA7], true)];
        for ((code, waiting), reply) in codes.into_iter().zip([4, 5, 0, 0]) {
            for (clock, reply) in [(3_999_999_900, reply), (3_999_999_901, 3), (u32::MAX, 3)] {
                let mut bench = Bench::with(code);
                (bench.cpu.clock, bench.cpu.waiting) = (clock, waiting);
                let before = (bench.cpu, bench.memory.clone());
                let outcome = bench.try_step(lines);
                assert_eq!((outcome.reply, outcome.cycles), (Reply::WrongLine, 0));
                assert!((bench.cpu, &bench.memory) == (before.0, &before.1));
                assert_eq!(bench.try_step(lines & 0x3F).reply.number(), reply);
            }
        }
    }
}

#[test]
fn the_limits_themselves_are_accepted() {
    let mut bench = Bench::with(&[0xA7, 0x00]);
    bench.cpu.clock = 3_900_000_000;
    let outcome = bench.run(&[], 100_000_000);
    assert_eq!((outcome.reply, outcome.cycles, bench.cpu.clock), (Reply::Stop, 1, 3_900_000_001));
}

#[test]
fn a_step_is_refused_in_the_order_1_3_4_5() {
    let mut cpu = Cpu { clock: u32::MAX, ..Cpu::default() };
    assert_eq!(step(&mut cpu, &mut [0; 100], 0).reply, Reply::WrongMemory);
    // The clock comes before a stop opcode, a reserved postbyte, and an idle cycle.
    for (code, waiting) in [(&[0x00][..], false), (&[0xB7, 0x33], false), (&[0xA7], true)] {
        let mut bench = Bench::with(code);
        bench.cpu.clock = 3_999_999_901;
        bench.cpu.waiting = waiting;
        assert_eq!(bench.try_step(0).reply, Reply::WrongTime);
        bench.cpu.clock = 3_999_999_900;
        assert_ne!(bench.try_step(0).reply, Reply::WrongTime);
    }
}

#[test]
fn stops_and_reserved_postbytes_are_told_with_nothing_left() {
    for (code, reply) in [(&[0x42, 0x00][..], Reply::Stop), (&[0x42, 0x04, 0x02], Reply::Reserved)]
    {
        for budget in [1, 100] {
            let mut bench = Bench::with(code);
            let outcome = bench.run(&[], budget);
            assert_eq!((outcome.reply, outcome.cycles), (reply, 1));
            assert_eq!((bench.cpu.pc, bench.cpu.clock, bench.cpu.a), (0x4001, 1, 1));
        }
    }
}

#[test]
fn a_due_entry_that_is_too_dear_hides_a_stop() {
    let mut bench = Bench::with(&[0x00]);
    bench.cpu.ccr = 0;
    let up = [Record { cycle: 0, lines: 2 }];
    assert_eq!(bench.run(&up, 8).reply, Reply::Done);
    assert_eq!(bench.cpu.pc, 0x4000);
    assert_eq!(bench.run(&up, 9).cycles, 9);
    // Masked, the request does not count and the stop is told.
    let mut bench = Bench::with(&[0x00]);
    assert_eq!(bench.run(&up, 8).reply, Reply::Stop);
}

#[test]
fn waiting_comes_before_a_stop() {
    let mut bench = Bench::with(&[0x00]);
    bench.cpu.waiting = true;
    let outcome = bench.run(&[], 25);
    assert_eq!((outcome.reply, outcome.cycles, bench.cpu.clock), (Reply::Done, 25, 25));
    assert_eq!((bench.cpu.pc, bench.cpu.waiting), (0x4000, true));
}

#[test]
fn the_last_record_at_or_before_the_clock_counts() {
    let schedule = [
        Record { cycle: 10, lines: 1 },
        Record { cycle: 20, lines: 0 },
        Record { cycle: 30, lines: 0x20 },
    ];
    for (clock, lines) in
        [(0, 0), (9, 0), (10, 1), (19, 1), (20, 0), (29, 0), (30, 0x20), (u32::MAX, 0x20)]
    {
        assert_eq!(lines_at(&schedule, clock), lines, "{}", clock);
    }
    assert_eq!(lines_at(&[], 5), 0);
}

#[test]
fn reset_refuses_a_wrong_memory_and_stores_nothing() {
    for length in [0, 1, 65_535, 65_537] {
        let (cpu, outcome) = reset(&vec![0x77; length]);
        assert_eq!((outcome.reply, outcome.cycles), (Reply::WrongMemory, 0));
        assert_eq!(cpu, Cpu { ccr: 0xD0, ..Cpu::default() });
    }
}

#[test]
fn a_run_that_stops_partway_leaves_the_state_after_its_last_whole_step() {
    // STAA $1000, then a reserved postbyte: the store stays, nothing else happens.
    let mut bench = Bench::with(&[0x86, 0x5A, 0x7A, 0x10, 0x00, 0x1A, 0xE3, 0x00, 0x00]);
    let outcome = bench.run(&[], 1_000);
    assert_eq!((outcome.reply, outcome.cycles), (Reply::Reserved, 4));
    assert_eq!((bench.cpu.pc, bench.byte(0x1000), bench.cpu.clock), (0x4005, 0x5A, 4));
}
