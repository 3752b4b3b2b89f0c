//! Operations and condition codes, held against plain arithmetic over whole ranges.

mod common;

use common::{after, Bench};
use second::cpu::{Cpu, C, H, N, V, Z};

/// N, Z, V, C as a number.
fn codes(n: bool, z: bool, v: bool, c: bool) -> u8 {
    u8::from(n) * N | u8::from(z) * Z | u8::from(v) * V | u8::from(c) * C
}

fn nz8(r: u8) -> (bool, bool) {
    (r >= 0x80, r == 0)
}

/// Runs an immediate instruction for A without building a new memory each time.
fn immediate(bench: &mut Bench, opcode: u8, a: u8, m: u8, ccr: u8) -> Cpu {
    bench.put(0x4000, &[opcode, m]);
    bench.cpu = Cpu { a, ccr, pc: 0x4000, ..Cpu::default() };
    bench.step();
    bench.cpu
}

#[test]
fn additions_over_all_bytes() {
    let mut bench = Bench::with(&[]);
    for a in 0..=255u8 {
        for m in 0..=255u8 {
            for carry in 0..=1u8 {
                let cpu = immediate(&mut bench, 0x89, a, m, carry);
                let sum = u16::from(a) + u16::from(m) + u16::from(carry);
                let signed = i16::from(a as i8) + i16::from(m as i8) + i16::from(carry);
                let r = sum as u8;
                let half = (a & 15) + (m & 15) + carry > 15;
                let (n, z) = nz8(r);
                let expected = codes(n, z, signed != i16::from(r as i8), sum > 255);
                assert_eq!((cpu.a, cpu.ccr), (r, expected | u8::from(half) * H));
            }
        }
    }
}

#[test]
fn subtractions_over_all_bytes() {
    let mut bench = Bench::with(&[]);
    for a in 0..=255u8 {
        for m in 0..=255u8 {
            for carry in 0..=1u8 {
                let cpu = immediate(&mut bench, 0x82, a, m, H | carry);
                let difference = i16::from(a) - i16::from(m) - i16::from(carry);
                let signed = i16::from(a as i8) - i16::from(m as i8) - i16::from(carry);
                let r = difference as u8;
                let (n, z) = nz8(r);
                let expected = codes(n, z, signed != i16::from(r as i8), difference < 0);
                assert_eq!((cpu.a, cpu.ccr), (r, expected | H));
            }
            let compared = immediate(&mut bench, 0x81, a, m, 0);
            let subtracted = immediate(&mut bench, 0x80, a, m, 0);
            assert_eq!((compared.a, compared.ccr), (a, subtracted.ccr));
        }
    }
}

#[test]
fn sixteen_bit_addition_and_subtraction() {
    let values = [0, 1, 2, 0x7FFE, 0x7FFF, 0x8000, 0x8001, 0xFFFE, 0xFFFF, 0x1234, 0xABCD];
    for x in values {
        for m in values {
            let [high, low] = u16::to_be_bytes(m);
            let load = |cpu: &mut Cpu| {
                cpu.set_d(x);
                (cpu.x, cpu.y, cpu.sp, cpu.ccr) = (x, x, x, H);
            };
            let sum = after(&[0xC3, high, low], load);
            let r = x.wrapping_add(m);
            let overflow = (x as i16).overflowing_add(m as i16).1;
            let expected = codes(r >= 0x8000, r == 0, overflow, x.checked_add(m).is_none());
            assert_eq!((sum.d(), sum.ccr), (r, expected | H));
            let r = x.wrapping_sub(m);
            let overflow = (x as i16).overflowing_sub(m as i16).1;
            let expected = codes(r >= 0x8000, r == 0, overflow, x < m) | H;
            let difference = after(&[0x83, high, low], load);
            assert_eq!((difference.d(), difference.ccr), (r, expected));
            for opcode in [0x8C, 0x8D, 0x8E, 0x8F] {
                let cpu = after(&[opcode, high, low], load);
                assert_eq!((cpu.d(), cpu.x, cpu.y, cpu.sp, cpu.ccr), (x, x, x, x, expected));
            }
        }
    }
}

/// Runs an inherent instruction on A and B.
fn inherent(bench: &mut Bench, code: &[u8], a: u8, ccr: u8) -> Cpu {
    bench.put(0x4000, code);
    bench.cpu = Cpu { a, b: a, ccr, pc: 0x4000, ..Cpu::default() };
    bench.step();
    bench.cpu
}

#[test]
fn shifts_and_rotations_set_v_to_n_xor_c() {
    let mut bench = Bench::with(&[]);
    for a in 0..=255u8 {
        for carry in 0..=1u8 {
            let results = [
                (0x48, a << 1, a >> 7),
                (0x44, a >> 1, a & 1),
                (0x47, (a as i8 >> 1) as u8, a & 1),
                (0x45, a << 1 | carry, a >> 7),
                (0x46, a >> 1 | carry << 7, a & 1),
            ];
            for (opcode, r, out) in results {
                let (n, z) = nz8(r);
                let expected = codes(n, z, n != (out == 1), out == 1);
                let cpu = inherent(&mut bench, &[opcode], a, carry);
                assert_eq!((cpu.a, cpu.b, cpu.ccr), (r, a, expected), "{:02X}", opcode);
                let cpu = inherent(&mut bench, &[opcode + 0x10], a, carry);
                assert_eq!((cpu.a, cpu.b, cpu.ccr), (a, r, expected), "{:02X}", opcode + 0x10);
                // The memory forms: extended 7x.
                bench.put(0x1000, &[a]);
                let cpu = inherent(&mut bench, &[opcode + 0x30, 0x10, 0x00], 0, carry);
                assert_eq!((bench.byte(0x1000), cpu.ccr), (r, expected));
            }
        }
    }
}

#[test]
fn shifts_of_d() {
    for d in [0x0000, 0x0001, 0x8000, 0x4000, 0xC001, 0x7FFF, 0xFFFF, 0x1234] {
        let left = after(&[0x59], |cpu| cpu.set_d(d));
        let (n, c) = (d << 1 & 0x8000 != 0, d & 0x8000 != 0);
        assert_eq!(left.d(), d << 1);
        assert_eq!(left.ccr, 0xD0 | codes(n, d << 1 == 0, n != c, c));
        let right = after(&[0x49], |cpu| cpu.set_d(d));
        let c = d & 1 != 0;
        assert_eq!(right.d(), d >> 1);
        assert_eq!(right.ccr, 0xD0 | codes(false, d >> 1 == 0, c, c));
    }
}

#[test]
fn one_operand_instructions_over_all_bytes() {
    let mut bench = Bench::with(&[]);
    for a in 0..=255u8 {
        for c in [false, true] {
            let kept = u8::from(c) | V | H;
            let negative = 0u8.wrapping_sub(a);
            let cases = [
                (0x40, negative, codes(negative > 0x7F, a == 0, a == 0x80, a != 0)),
                (0x41, !a, codes(!a > 0x7F, a == 0xFF, false, true)),
                (
                    0x42,
                    a.wrapping_add(1),
                    codes((0x7F..0xFF).contains(&a), a == 0xFF, a == 0x7F, c),
                ),
                (0x43, a.wrapping_sub(1), codes(a == 0 || a > 0x80, a == 1, a == 0x80, c)),
                (0x87, 0, Z),
                (0x97, a, codes(a > 0x7F, a == 0, false, false)),
            ];
            for (opcode, r, expected) in cases {
                let cpu = inherent(&mut bench, &[opcode], a, kept);
                assert_eq!((cpu.a, cpu.ccr), (r, expected | H), "{:02X} of {:02X}", opcode, a);
            }
        }
    }
}

#[test]
fn memory_forms_write_one_byte_and_nothing_else() {
    // NEG, COM, INC, DEC, CLR and TST of $1000 = $80 by extended addressing.
    let cases = [
        (0x70, 0x80, N | V | C),
        (0x71, 0x7F, C),
        (0x72, 0x81, N),
        (0x73, 0x7F, V),
        (0x79, 0x00, Z),
        (0xF7, 0x80, N),
    ];
    for (opcode, r, expected) in cases {
        let mut bench = Bench::with(&[opcode, 0x10, 0x00]);
        bench.cpu.ccr = 0;
        bench.put(0x0FFF, &[0x11, 0x80, 0x22]);
        let mut memory = bench.memory.clone();
        memory[0x1000] = r;
        bench.step();
        assert_eq!((bench.cpu.ccr, bench.memory == memory), (expected, true), "{:02X}", opcode);
    }
}

#[test]
fn logic_clears_v_and_keeps_c() {
    for (opcode, r) in [(0x84, 0x80), (0x85, 0xC1), (0x88, 0x75), (0x8A, 0xF5), (0x86, 0xB4)] {
        let cpu = after(&[opcode, 0xB4], |cpu| (cpu.a, cpu.ccr) = (0xC1, V | C | Z));
        assert_eq!((cpu.a, cpu.ccr & (V | C)), (r, C), "{:02X}", opcode);
    }
    // BITA leaves A but has the codes of ANDA.
    assert_eq!(after(&[0x85, 0x3E], |cpu| (cpu.a, cpu.ccr) = (0xC1, N)).ccr, Z);
    // The B side, EORB's result included.
    for (opcode, r) in [(0xC4, 0x80), (0xC5, 0xC1), (0xC8, 0x75), (0xCA, 0xF5), (0xC6, 0xB4)] {
        let cpu = after(&[opcode, 0xB4], |cpu| (cpu.a, cpu.b) = (0x99, 0xC1));
        assert_eq!((cpu.a, cpu.b), (0x99, r), "{:02X}", opcode);
    }
}

#[test]
fn stores_set_n_and_z_and_clear_v() {
    for (opcode, value) in [(0x7A, 0x81), (0x7B, 0x00), (0x7C, 0x8100)] {
        let mut bench = Bench::with(&[opcode, 0x10, 0x00]);
        (bench.cpu.a, bench.cpu.b, bench.cpu.ccr) = (0x81, 0x00, V | C);
        bench.step();
        let stored = if opcode == 0x7C { bench.word(0x1000) } else { bench.byte(0x1000).into() };
        assert_eq!(stored, value);
        assert_eq!(bench.cpu.ccr, if value == 0 { Z | C } else { N | C });
    }
}

#[test]
fn decimal_addition_of_all_digits() {
    let mut bench = Bench::with(&[]);
    for x in 0..100u8 {
        for y in 0..100u8 {
            for carry in 0..=1u8 {
                let bcd = |n: u8| n / 10 << 4 | n % 10;
                bench.put(0x4000, &[0x89, bcd(y), 0x18, 0x07]);
                bench.cpu = Cpu { a: bcd(x), ccr: carry, pc: 0x4000, ..Cpu::default() };
                bench.steps(2);
                let sum = x + y + carry;
                assert_eq!((bench.cpu.a, bench.cpu.ccr & C), (bcd(sum % 100), sum / 100));
                assert_eq!(bench.cpu.ccr & Z != 0, sum % 100 == 0);
            }
        }
    }
}

#[test]
fn daa_without_a_row_adds_nothing_and_keeps_c_and_v() {
    // H set with a low digit above 3 is in no row.
    for ccr in [H, H | V, H | C, H | C | V] {
        let cpu = after(&[0x18, 0x07], |cpu| (cpu.a, cpu.ccr) = (0x94, ccr));
        assert_eq!((cpu.a, cpu.ccr), (0x94, ccr | N));
    }
    let cpu = after(&[0x18, 0x07], |cpu| (cpu.a, cpu.ccr) = (0x30, C));
    assert_eq!((cpu.a, cpu.ccr), (0x30, C));
}

/// A division: registers before, and D, X, Y and CCR after.
fn divide(code: &[u8], d: u16, x: u16, y: u16, ccr: u8) -> (u16, u16, u16, u8) {
    let cpu = after(code, |cpu| {
        cpu.set_d(d);
        (cpu.x, cpu.y, cpu.ccr) = (x, y, ccr);
    });
    (cpu.d(), cpu.x, cpu.y, cpu.ccr)
}

#[test]
fn idiv_and_fdiv() {
    assert_eq!(divide(&[0x18, 0x10], 1000, 7, 0, 0x0F), (6, 142, 0, N));
    assert_eq!(divide(&[0x18, 0x10], 6, 7, 0, 0), (6, 0, 0, Z));
    assert_eq!(divide(&[0x18, 0x10], 5, 0, 0, 0x0F), (5, 0xFFFF, 0, N | C));
    assert_eq!(divide(&[0x18, 0x11], 1, 3, 0, 0x0F), (1, 0x5555, 0, N));
    assert_eq!(divide(&[0x18, 0x11], 0, 3, 0, 0), (0, 0, 0, Z));
    assert_eq!(divide(&[0x18, 0x11], 3, 3, 0, Z), (3, 0xFFFF, 0, V));
    assert_eq!(divide(&[0x18, 0x11], 3, 0, 0, N), (3, 0xFFFF, 0, N | V | C));
}

#[test]
fn idivs() {
    let neg = |n: i16| n as u16;
    assert_eq!(divide(&[0x18, 0x15], neg(-7), 2, 0, C | V), (neg(-1), neg(-3), 0, N));
    assert_eq!(divide(&[0x18, 0x15], 7, neg(-2), 0, 0), (1, neg(-3), 0, N));
    assert_eq!(divide(&[0x18, 0x15], neg(-7), neg(-2), 0, 0), (neg(-1), 3, 0, 0));
    assert_eq!(divide(&[0x18, 0x15], 1, 2, 0, N), (1, 0, 0, Z));
    assert_eq!(divide(&[0x18, 0x15], 5, 0, 0, N | V), (5, 0, 0, N | V | C));
    assert_eq!(divide(&[0x18, 0x15], 0x8000, 0xFFFF, 0, N | Z | C), (0x8000, 0xFFFF, 0, N | Z | V));
    assert_eq!(divide(&[0x18, 0x15], 0x8000, 1, 0, 0), (0, 0x8000, 0, N));
}

#[test]
fn ediv() {
    assert_eq!(divide(&[0x11], 0x0000, 2, 1, 0x0F), (0, 2, 0x8000, N));
    assert_eq!(divide(&[0x11], 0xFFFF, 0x0003, 0x0002, 0), (2, 3, 0xFFFF, N));
    assert_eq!(divide(&[0x11], 0, 2, 2, N | Z | C), (0, 2, 2, N | Z | V));
    assert_eq!(divide(&[0x11], 1, 2, 0, N | V), (1, 2, 0, Z));
    assert_eq!(divide(&[0x11], 9, 0, 8, V), (9, 0, 8, V | C));
}

#[test]
fn edivs() {
    let run = |dividend: i32, divisor: i16, ccr: u8| {
        let (high, low) = ((dividend >> 16) as u16, dividend as u16);
        divide(&[0x18, 0x14], low, divisor as u16, high, ccr)
    };
    assert_eq!(run(-7, 2, C | V), ((-1i16) as u16, 2, (-3i16) as u16, N));
    assert_eq!(run(100_000, -7, 0), (5, (-7i16) as u16, (-14285i16) as u16, N));
    // -32,768 and 32,767 fit, 32,768 and -32,769 do not.
    assert_eq!(run(-0x8000 * 3, 3, 0), (0, 3, 0x8000, N));
    assert_eq!(run(0x7FFF * 3 + 2, 3, 0), (2, 3, 0x7FFF, 0));
    let (d, _, y, ccr) = run(0x8000 * 3, 3, N | Z | C);
    assert_eq!((d, y, ccr), (0x8000, 1, N | Z | V));
    assert_eq!(run(-0x8001 * 3, 3, 0).3, V);
    assert_eq!(run(i32::MIN, -1, Z), (0, 0xFFFF, 0x8000, Z | V));
    assert_eq!(run(5, 0, V), (5, 0, 0, V | C));
}

#[test]
fn products() {
    let multiply = |code: &[u8], d: u16, y: u16, ccr: u8| {
        let cpu = after(code, |cpu| {
            cpu.set_d(d);
            (cpu.y, cpu.ccr) = (y, ccr);
        });
        (u32::from(cpu.y) << 16 | u32::from(cpu.d()), cpu.ccr)
    };
    assert_eq!(multiply(&[0x13], 0xFFFF, 0xFFFF, V | Z), (0xFFFE_0001, N | V));
    assert_eq!(multiply(&[0x13], 0x0100, 0x0080, 0), (0x8000, C));
    assert_eq!(multiply(&[0x13], 0, 0x1234, N | C), (0, Z));
    assert_eq!(multiply(&[0x18, 0x13], 0xFFFF, 0xFFFF, 0), (1, 0));
    assert_eq!(multiply(&[0x18, 0x13], 0xFFFF, 2, V), (0xFFFF_FFFE, N | V | C));
    assert_eq!(multiply(&[0x18, 0x13], 0x8000, 0x8000, 0), (0x4000_0000, 0));
}

/// EMACS on an accumulator at $1000: its value and the codes after.
fn emacs(first: u16, second: u16, before: u32) -> (u32, u8) {
    let mut bench = Bench::with(&[0x18, 0x12, 0x10, 0x00]);
    (bench.cpu.x, bench.cpu.y, bench.cpu.ccr) = (0x2000, 0x2100, 0);
    bench.put(0x2000, &first.to_be_bytes());
    bench.put(0x2100, &second.to_be_bytes());
    bench.put(0x1000, &before.to_be_bytes());
    bench.step();
    let after = u32::from(bench.word(0x1000)) << 16 | u32::from(bench.word(0x1002));
    (after, bench.cpu.ccr)
}

#[test]
fn multiply_and_accumulate() {
    assert_eq!(emacs(3, 4, 100), (112, 0));
    assert_eq!(emacs(0xFFFF, 1, 1), (0, Z | C));
    assert_eq!(emacs(0xFFFF, 1, 0), (0xFFFF_FFFF, N));
    assert_eq!(emacs(1, 1, 0x7FFF_FFFF), (0x8000_0000, N | V | C));
    assert_eq!(emacs(0xFFFF, 1, 0x8000_0000), (0x7FFF_FFFF, V));
    assert_eq!(emacs(0x8000, 0x8000, 0), (0x4000_0000, 0));
    assert_eq!(emacs(1, 1, 0xFFFF), (0x1_0000, C));
}

#[test]
fn tables_interpolate_down() {
    let tbl = |first: u8, second: u8, b: u8| {
        let mut bench = Bench::with(&[0x18, 0x3D, 0x00]);
        (bench.cpu.x, bench.cpu.b, bench.cpu.ccr) = (0x1000, b, V | C);
        bench.put(0x1000, &[first, second]);
        bench.step();
        (bench.cpu.a, bench.cpu.ccr)
    };
    assert_eq!(tbl(0, 255, 128), (127, V | C));
    assert_eq!(tbl(255, 0, 128), (127, V | C));
    assert_eq!(tbl(255, 0, 1), (254, N | V | C));
    assert_eq!(tbl(10, 9, 1), (9, V | C));
    assert_eq!(tbl(0, 255, 0), (0, Z | V | C));
    let etbl = |first: u16, second: u16, b: u8| {
        let mut bench = Bench::with(&[0x18, 0x3F, 0x00]);
        (bench.cpu.x, bench.cpu.b, bench.cpu.ccr) = (0x1000, b, 0);
        bench.put(0x1000, &first.to_be_bytes());
        bench.put(0x1002, &second.to_be_bytes());
        bench.step();
        (bench.cpu.d(), bench.cpu.ccr)
    };
    assert_eq!(etbl(0, 0xFFFF, 0x80), (0x7FFF, 0));
    assert_eq!(etbl(0xFFFF, 0, 0x80), (0x7FFF, 0));
    assert_eq!(etbl(0x8000, 0x8100, 0xFF), (0x80FF, N));
    assert_eq!(etbl(1, 0, 1), (0, Z));
}

#[test]
fn limits_have_the_codes_of_a_subtraction() {
    // MAXA, MINA, MAXM, MINM with A = $40 and M = $C0: $40 - $C0 = $80, borrow, overflow.
    for (opcode, a, m) in
        [(0x18, 0xC0, 0xC0), (0x19, 0x40, 0xC0), (0x1C, 0x40, 0xC0), (0x1D, 0x40, 0x40)]
    {
        let mut bench = Bench::with(&[0x18, opcode, 0x00]);
        (bench.cpu.x, bench.cpu.a, bench.cpu.ccr) = (0x1000, 0x40, Z);
        bench.put(0x1000, &[0xC0]);
        bench.step();
        assert_eq!((bench.cpu.a, bench.byte(0x1000), bench.cpu.ccr), (a, m, N | V | C));
    }
    for (opcode, d, m) in [
        (0x1A, 0xC000, 0xC000),
        (0x1B, 0x4000, 0xC000),
        (0x1E, 0x4000, 0xC000),
        (0x1F, 0x4000, 0x4000),
    ] {
        let mut bench = Bench::with(&[0x18, opcode, 0x00]);
        (bench.cpu.x, bench.cpu.ccr) = (0x1000, Z);
        bench.cpu.set_d(0x4000);
        bench.put(0x1000, &[0xC0, 0x00]);
        bench.step();
        assert_eq!((bench.cpu.d(), bench.word(0x1000), bench.cpu.ccr), (d, m, N | V | C));
    }
}

#[test]
fn the_sixteen_conditions() {
    for ccr in 0..16u8 {
        let (n, z) = (ccr & N != 0, ccr & Z != 0);
        let (v, c) = (ccr & V != 0, ccr & C != 0);
        let conditions = [
            true,
            false,
            !(c || z),
            c || z,
            !c,
            c,
            !z,
            z,
            !v,
            v,
            !n,
            n,
            n == v,
            n != v,
            !(z || n != v),
            z || n != v,
        ];
        for (opcode, &taken) in (0x20u8..).zip(&conditions) {
            let short = after(&[opcode, 0x10], |cpu| cpu.ccr = ccr);
            assert_eq!(short.pc, if taken { 0x4012 } else { 0x4002 }, "{:02X}", opcode);
            let long = after(&[0x18, opcode, 0xF0, 0x00], |cpu| cpu.ccr = ccr);
            assert_eq!(long.pc, if taken { 0x3004 } else { 0x4004 }, "18 {:02X}", opcode);
            assert_eq!((short.ccr, long.ccr), (ccr, ccr));
        }
    }
}

#[test]
fn pushes_and_pulls() {
    let mut bench =
        Bench::with(&[0x36, 0x37, 0x39, 0x3B, 0x34, 0x35, 0x31, 0x30, 0x3A, 0x38, 0x33, 0x32]);
    (bench.cpu.a, bench.cpu.b, bench.cpu.x, bench.cpu.y) = (1, 2, 0x0304, 0x0506);
    assert_eq!(bench.steps(6), 12);
    assert_eq!(bench.memory[0x1FF7..0x2000], [5, 6, 3, 4, 1, 2, 0xD0, 2, 1]);
    (bench.cpu.a, bench.cpu.b, bench.cpu.x, bench.cpu.y) = (0, 0, 0, 0);
    assert_eq!(bench.steps(6), 18);
    let cpu = bench.cpu;
    assert_eq!((cpu.a, cpu.b, cpu.x, cpu.y, cpu.sp, cpu.ccr), (1, 2, 0x0304, 0x0506, 0x2000, 0xD0));
}

#[test]
fn subroutines_and_the_ends_of_memory() {
    // BSR with SP = 1 puts the low byte of the return address at $0000.
    let mut bench = Bench::with(&[0x07, 0x10]);
    bench.cpu.sp = 0x0001;
    assert_eq!(bench.step(), 4);
    assert_eq!((bench.cpu.sp, bench.cpu.pc), (0xFFFF, 0x4012));
    assert_eq!((bench.byte(0xFFFF), bench.byte(0x0000)), (0x40, 0x02));
    bench.put(0x4012, &[0x3D]);
    assert_eq!(bench.step(), 5);
    assert_eq!((bench.cpu.sp, bench.cpu.pc), (0x0001, 0x4002));
    // An instruction that lies over the end of memory.
    let mut bench = Bench::with(&[]);
    bench.cpu.pc = 0xFFFE;
    bench.put(0xFFFE, &[0xCE, 0x12, 0x34, 0xA7]);
    bench.steps(2);
    assert_eq!((bench.cpu.x, bench.cpu.pc), (0x1234, 0x0002));
    // A prebyte at $FFFF.
    let mut bench = Bench::with(&[]);
    (bench.cpu.pc, bench.cpu.a, bench.cpu.b) = (0xFFFF, 3, 4);
    bench.put(0xFFFF, &[0x18, 0x06]);
    bench.step();
    assert_eq!((bench.cpu.a, bench.cpu.pc), (7, 0x0001));
}

#[test]
fn instruction_bytes_are_read_before_the_stack_covers_them() {
    // PSHD at $4000 with SP = $4003: it overwrites itself and what follows.
    let mut bench = Bench::with(&[0x16, 0x50, 0x00]);
    bench.cpu.sp = 0x4002;
    bench.step();
    assert_eq!((bench.cpu.pc, bench.word(0x4000)), (0x5000, 0x4003));
}

#[test]
fn tab_and_tba_set_codes_where_tfr_does_not() {
    let cpu = after(&[0x18, 0x0E], |cpu| (cpu.a, cpu.ccr) = (0x80, Z | V | C));
    assert_eq!((cpu.b, cpu.ccr), (0x80, N | C));
    let cpu = after(&[0x18, 0x0F], |cpu| (cpu.a, cpu.b, cpu.ccr) = (1, 0, N | V));
    assert_eq!((cpu.a, cpu.ccr), (0, Z));
    let cpu = after(&[0xB7, 0x01], |cpu| (cpu.a, cpu.ccr) = (0x80, Z | V | C));
    assert_eq!((cpu.b, cpu.ccr), (0x80, Z | V | C));
}

#[test]
fn aba_sba_and_cba() {
    let load = |cpu: &mut Cpu| (cpu.a, cpu.b, cpu.ccr) = (0x78, 0x0A, 0);
    let cpu = after(&[0x18, 0x06], load);
    assert_eq!((cpu.a, cpu.b, cpu.ccr), (0x82, 0x0A, H | N | V));
    let cpu = after(&[0x18, 0x16], load);
    assert_eq!((cpu.a, cpu.b, cpu.ccr), (0x6E, 0x0A, 0));
    let cpu = after(&[0x18, 0x17], |cpu| (cpu.a, cpu.b, cpu.ccr) = (0x0A, 0x78, H));
    assert_eq!((cpu.a, cpu.b, cpu.ccr), (0x0A, 0x78, H | N | C));
}

#[test]
fn bit_instructions() {
    // BSET and BCLR by direct, extended and indexed addressing.
    let forms: [(&[u8], &[u8]); 3] =
        [(&[0x4C], &[0x4D]), (&[0x1C, 0x00], &[0x1D, 0x00]), (&[0x0C, 0xF0], &[0x0D, 0xF0])];
    for (set, clear) in forms {
        let code = [set, &[0x20, 0x81], clear, &[0x20, 0x0F]].concat();
        let mut bench = Bench::with(&code);
        (bench.cpu.sp, bench.cpu.ccr) = (0, V | C);
        bench.put(0x20, &[0x18]);
        bench.step();
        assert_eq!((bench.byte(0x20), bench.cpu.ccr), (0x99, N | C));
        bench.step();
        assert_eq!((bench.byte(0x20), bench.cpu.ccr), (0x90, N | C));
    }
}

#[test]
fn index_registers_count_with_z_alone() {
    for (opcode, before, now) in
        [(0x08, 0xFFFF, 0), (0x08, 0x7FFF, 0x8000), (0x09, 1, 0), (0x09, 0, 0xFFFF)]
    {
        let cpu = after(&[opcode], |cpu| (cpu.x, cpu.ccr) = (before, 0xFB));
        assert_eq!((cpu.x, cpu.ccr), (now, if now == 0 { 0xFF } else { 0xFB }));
        let cpu = after(&[opcode - 6], |cpu| (cpu.y, cpu.ccr) = (before, 0xFB));
        assert_eq!((cpu.y, cpu.ccr), (now, if now == 0 { 0xFF } else { 0xFB }));
    }
}
