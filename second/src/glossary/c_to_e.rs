//! CALL to EXG (002 p. 6-52 to 6-90).

use crate::codes::{addition_overflow, after_logic8, after_subtract16, after_subtract8, carry};
use crate::codes::{set_nz16, set_nz8};
use crate::cpu::{Cpu, C, H, N, V, Z};
use crate::postbyte::{loop_parts, transfer_registers, LoopKind, Register};
use crate::step::Step;

// CALL, 002 p. 6-52, stops the machine.

/// CBA, 002 p. 6-53: the codes of (A) - (B).
pub fn cba(s: &mut Step) {
    let (a, b) = (s.cpu.a, s.cpu.b);
    after_subtract8(&mut s.cpu, a, b, a.wrapping_sub(b));
}

// CLC, CLI and CLV, 002 p. 6-54, 6-55 and 6-59, are ANDCC.

/// N 0, Z 1, V 0, C 0.
fn cleared(cpu: &mut Cpu) {
    cpu.set_flag(N, false);
    cpu.set_flag(Z, true);
    cpu.set_flag(V, false);
    cpu.set_flag(C, false);
}

/// CLR, 002 p. 6-56.
pub fn clr(s: &mut Step) {
    s.write8(s.address(), 0);
    cleared(&mut s.cpu);
}

/// CLRA, 002 p. 6-57.
pub fn clra(s: &mut Step) {
    s.cpu.a = 0;
    cleared(&mut s.cpu);
}

/// CLRB, 002 p. 6-58.
pub fn clrb(s: &mut Step) {
    s.cpu.b = 0;
    cleared(&mut s.cpu);
}

/// CMPA, 002 p. 6-60: the codes of (A) - (M).
pub fn cmpa(s: &mut Step) {
    let (a, m) = (s.cpu.a, s.operand8());
    after_subtract8(&mut s.cpu, a, m, a.wrapping_sub(m));
}

/// CMPB, 002 p. 6-61: the codes of (B) - (M).
pub fn cmpb(s: &mut Step) {
    let (b, m) = (s.cpu.b, s.operand8());
    after_subtract8(&mut s.cpu, b, m, b.wrapping_sub(m));
}

/// N and Z of the result, V 0, C 1.
fn complemented(cpu: &mut Cpu, result: u8) {
    after_logic8(cpu, result);
    cpu.set_flag(C, true);
}

/// COM, 002 p. 6-62: $FF - (M) => M.
pub fn com(s: &mut Step) {
    let result = 0xFF - s.operand8();
    s.write8(s.address(), result);
    complemented(&mut s.cpu, result);
}

/// COMA, 002 p. 6-63.
pub fn coma(s: &mut Step) {
    let result = 0xFF - s.cpu.a;
    s.cpu.a = result;
    complemented(&mut s.cpu, result);
}

/// COMB, 002 p. 6-64.
pub fn comb(s: &mut Step) {
    let result = 0xFF - s.cpu.b;
    s.cpu.b = result;
    complemented(&mut s.cpu, result);
}

fn compare16(s: &mut Step, register: u16) {
    let m = s.operand16();
    after_subtract16(&mut s.cpu, register, m, register.wrapping_sub(m));
}

/// CPD, 002 p. 6-65: the codes of (A:B) - (M:M+1).
pub fn cpd(s: &mut Step) {
    compare16(s, s.cpu.d());
}

/// CPS, 002 p. 6-66. Its V is printed as an addition's; the operation subtracts.
pub fn cps(s: &mut Step) {
    compare16(s, s.cpu.sp);
}

/// CPX, 002 p. 6-67.
pub fn cpx(s: &mut Step) {
    compare16(s, s.cpu.x);
}

/// CPY, 002 p. 6-68.
pub fn cpy(s: &mut Step) {
    compare16(s, s.cpu.y);
}

/// The table of DAA's page: correction and carry for C, A[7:4], H and A[3:0], or
/// nothing where the table has no row.
fn daa_row(c: bool, high: u8, h: bool, low: u8) -> Option<(u8, bool)> {
    match (c, high, h, low) {
        (false, 0..=9, false, 0..=9) => Some((0x00, false)),
        (false, 0..=8, false, 0xA..=0xF) => Some((0x06, false)),
        (false, 0..=9, true, 0..=3) => Some((0x06, false)),
        (false, 0xA..=0xF, false, 0..=9) => Some((0x60, true)),
        (false, 9..=0xF, false, 0xA..=0xF) => Some((0x66, true)),
        (false, 0xA..=0xF, true, 0..=3) => Some((0x66, true)),
        (true, 0..=2, false, 0..=9) => Some((0x60, true)),
        (true, 0..=2, false, 0xA..=0xF) => Some((0x66, true)),
        (true, 0..=3, true, 0..=3) => Some((0x66, true)),
        _ => None,
    }
}

/// DAA, 002 p. 6-69. V is undefined there and is kept. Without a row it adds 00 and
/// keeps C.
pub fn daa(s: &mut Step) {
    let a = s.cpu.a;
    let carry_before = s.cpu.flag(C);
    let row = daa_row(carry_before, a >> 4, s.cpu.flag(H), a & 0x0F);
    let (correction, carry_after) = row.unwrap_or((0, carry_before));
    let result = a.wrapping_add(correction);
    s.cpu.a = result;
    set_nz8(&mut s.cpu, result);
    s.cpu.set_flag(C, carry_after);
}

/// The value of a loop's counter; A and B are eight bits wide.
fn counter_value(s: &Step, counter: Register) -> u16 {
    match counter {
        Register::A => u16::from(s.cpu.a),
        Register::B => u16::from(s.cpu.b),
        Register::Ccr => unreachable!("CCR is no counter"),
        Register::D => s.cpu.d(),
        Register::X => s.cpu.x,
        Register::Y => s.cpu.y,
        Register::Sp => s.cpu.sp,
    }
}

/// Adds to a counter in its own width and gives its new value.
fn step_counter(s: &mut Step, counter: Register, amount: u16) -> u16 {
    let sum = counter_value(s, counter).wrapping_add(amount);
    match counter {
        Register::A => s.cpu.a = sum as u8,
        Register::B => s.cpu.b = sum as u8,
        Register::Ccr => unreachable!("CCR is no counter"),
        Register::D => s.cpu.set_d(sum),
        Register::X => s.cpu.x = sum,
        Register::Y => s.cpu.y = sum,
        Register::Sp => s.cpu.sp = sum,
    }
    counter_value(s, counter)
}

/// The cell 04: which of the six primitives it is stands in the postbyte.
pub fn loop_primitive(s: &mut Step) {
    let (kind, counter) = loop_parts(s.postbyte).expect("reserved postbytes are refused before");
    match kind {
        LoopKind::Dbeq => dbeq(s, counter),
        LoopKind::Dbne => dbne(s, counter),
        LoopKind::Ibeq => ibeq(s, counter),
        LoopKind::Ibne => ibne(s, counter),
        LoopKind::Tbeq => tbeq(s, counter),
        LoopKind::Tbne => tbne(s, counter),
    }
}

/// DBEQ, 002 p. 6-70.
fn dbeq(s: &mut Step, counter: Register) {
    let value = step_counter(s, counter, 0xFFFF);
    s.branch_if(value == 0);
}

/// DBNE, 002 p. 6-71.
fn dbne(s: &mut Step, counter: Register) {
    let value = step_counter(s, counter, 0xFFFF);
    s.branch_if(value != 0);
}

/// IBEQ, 002 p. 6-92.
fn ibeq(s: &mut Step, counter: Register) {
    let value = step_counter(s, counter, 1);
    s.branch_if(value == 0);
}

/// IBNE, 002 p. 6-93.
fn ibne(s: &mut Step, counter: Register) {
    let value = step_counter(s, counter, 1);
    s.branch_if(value != 0);
}

/// TBEQ, 002 p. 6-200.
fn tbeq(s: &mut Step, counter: Register) {
    let value = counter_value(s, counter);
    s.branch_if(value == 0);
}

/// TBNE, 002 p. 6-202.
fn tbne(s: &mut Step, counter: Register) {
    let value = counter_value(s, counter);
    s.branch_if(value != 0);
}

/// N, Z and V of a decrement; C is kept. Overflow only from $80.
fn decremented(cpu: &mut Cpu, before: u8) -> u8 {
    let result = before.wrapping_sub(1);
    set_nz8(cpu, result);
    cpu.set_flag(V, before == 0x80);
    result
}

/// DEC, 002 p. 6-72.
pub fn dec(s: &mut Step) {
    let before = s.operand8();
    let result = decremented(&mut s.cpu, before);
    s.write8(s.address(), result);
}

/// DECA, 002 p. 6-73.
pub fn deca(s: &mut Step) {
    let before = s.cpu.a;
    s.cpu.a = decremented(&mut s.cpu, before);
}

/// DECB, 002 p. 6-74.
pub fn decb(s: &mut Step) {
    let before = s.cpu.b;
    s.cpu.b = decremented(&mut s.cpu, before);
}

// DES, 002 p. 6-75, is LEAS -1,SP.

/// DEX, 002 p. 6-76: only Z.
pub fn dex(s: &mut Step) {
    s.cpu.x = s.cpu.x.wrapping_sub(1);
    s.cpu.set_flag(Z, s.cpu.x == 0);
}

/// DEY, 002 p. 6-77: only Z.
pub fn dey(s: &mut Step) {
    s.cpu.y = s.cpu.y.wrapping_sub(1);
    s.cpu.set_flag(Z, s.cpu.y == 0);
}

/// Y:D as 32 bits.
fn y_d(cpu: &Cpu) -> u32 {
    u32::from(cpu.y) << 16 | u32::from(cpu.d())
}

fn set_y_d(cpu: &mut Cpu, value: u32) {
    cpu.y = (value >> 16) as u16;
    cpu.set_d(value as u16);
}

/// EDIV, 002 p. 6-78: (Y:D) / (X) => Y, remainder => D. What the page leaves
/// undefined (N and Z after overflow, N, Z and V after division by zero) is kept.
pub fn ediv(s: &mut Step) {
    let divisor = u32::from(s.cpu.x);
    s.cpu.set_flag(C, divisor == 0);
    if divisor == 0 {
        return;
    }
    let dividend = y_d(&s.cpu);
    let quotient = dividend / divisor;
    s.cpu.set_flag(V, quotient > 0xFFFF);
    if quotient > 0xFFFF {
        return;
    }
    s.cpu.y = quotient as u16;
    s.cpu.set_d((dividend % divisor) as u16);
    set_nz16(&mut s.cpu, quotient as u16);
}

/// EDIVS, 002 p. 6-79: the same with signs. The quotient is cut off toward zero and
/// the remainder has the dividend's sign.
pub fn edivs(s: &mut Step) {
    let divisor = i64::from(s.cpu.x as i16);
    s.cpu.set_flag(C, divisor == 0);
    if divisor == 0 {
        return;
    }
    let dividend = i64::from(y_d(&s.cpu) as i32);
    let quotient = dividend / divisor;
    let too_large = quotient > 0x7FFF || quotient < -0x8000;
    s.cpu.set_flag(V, too_large);
    if too_large {
        return;
    }
    s.cpu.y = quotient as u16;
    s.cpu.set_d((dividend % divisor) as u16);
    set_nz16(&mut s.cpu, quotient as u16);
}

/// EMACS, 002 p. 6-80: (M(X):M(X+1)) x (M(Y):M(Y+1)) + (M~M+3) => M~M+3, signed.
/// C is the carry out of bit 15, V that of the 32-bit sum.
pub fn emacs(s: &mut Step) {
    let first = i32::from(s.read16(s.cpu.x) as i16);
    let second = i32::from(s.read16(s.cpu.y) as i16);
    let product = (first * second) as u32;
    let before = s.read32(s.address());
    let result = before.wrapping_add(product);
    s.write32(s.address(), result);
    s.cpu.set_flag(N, result & 0x8000_0000 != 0);
    s.cpu.set_flag(Z, result == 0);
    s.cpu.set_flag(V, addition_overflow(before, product, result, 31));
    s.cpu.set_flag(C, carry(before, product, result, 15));
}

/// The codes of (D) - (M:M+1), which the four 16-bit limit instructions set.
fn limit_codes(s: &mut Step) -> (u16, u16) {
    let (d, m) = (s.cpu.d(), s.operand16());
    after_subtract16(&mut s.cpu, d, m, d.wrapping_sub(m));
    (d, m)
}

/// EMAXD, 002 p. 6-81.
pub fn emaxd(s: &mut Step) {
    let (d, m) = limit_codes(s);
    s.cpu.set_d(d.max(m));
}

/// EMAXM, 002 p. 6-82. The larger value is always stored.
pub fn emaxm(s: &mut Step) {
    let (d, m) = limit_codes(s);
    s.write16(s.address(), d.max(m));
}

/// EMIND, 002 p. 6-83.
pub fn emind(s: &mut Step) {
    let (d, m) = limit_codes(s);
    s.cpu.set_d(d.min(m));
}

/// EMINM, 002 p. 6-84. The smaller value is always stored.
pub fn eminm(s: &mut Step) {
    let (d, m) = limit_codes(s);
    s.write16(s.address(), d.min(m));
}

/// N of bit 31, Z of 32 bits, C of bit 15; V is not touched.
fn multiplied(cpu: &mut Cpu, product: u32) {
    set_y_d(cpu, product);
    cpu.set_flag(N, product & 0x8000_0000 != 0);
    cpu.set_flag(Z, product == 0);
    cpu.set_flag(C, product & 0x8000 != 0);
}

/// EMUL, 002 p. 6-85: (D) x (Y) => Y:D, unsigned.
pub fn emul(s: &mut Step) {
    let product = u32::from(s.cpu.d()) * u32::from(s.cpu.y);
    multiplied(&mut s.cpu, product);
}

/// EMULS, 002 p. 6-86: the same, signed.
pub fn emuls(s: &mut Step) {
    let product = i32::from(s.cpu.d() as i16) * i32::from(s.cpu.y as i16);
    multiplied(&mut s.cpu, product as u32);
}

/// EORA, 002 p. 6-87.
pub fn eora(s: &mut Step) {
    s.cpu.a ^= s.operand8();
    let result = s.cpu.a;
    after_logic8(&mut s.cpu, result);
}

/// EORB, 002 p. 6-88. The page says A where it means B.
pub fn eorb(s: &mut Step) {
    s.cpu.b ^= s.operand8();
    let result = s.cpu.b;
    after_logic8(&mut s.cpu, result);
}

/// ETBL, 002 p. 6-89: Y1 + (B) x (Y2 - Y1) => D, B being a fraction of 256. The
/// product is cut off downward. C is undefined there and is kept.
pub fn etbl(s: &mut Step) {
    let first = i32::from(s.operand16());
    let second = i32::from(s.read16(s.address().wrapping_add(2)));
    let product = i32::from(s.cpu.b) * (second - first);
    let result = first.wrapping_add(product >> 8) as u16;
    s.cpu.set_d(result);
    set_nz16(&mut s.cpu, result);
}

/// The cell B7: bit 7 of the postbyte tells an exchange from a transfer.
pub fn transfer_or_exchange(s: &mut Step) {
    let (first, second) =
        transfer_registers(s.postbyte).expect("reserved postbytes are refused before");
    if s.postbyte & 0x80 == 0 {
        super::tfr(s, first, second);
    } else {
        exg(s, first, second);
    }
}

/// A register's value, a byte with a high byte of zero.
pub(super) fn register_value(cpu: &Cpu, register: Register) -> u16 {
    match register {
        Register::A => u16::from(cpu.a),
        Register::B => u16::from(cpu.b),
        Register::Ccr => u16::from(cpu.ccr),
        Register::D => cpu.d(),
        Register::X => cpu.x,
        Register::Y => cpu.y,
        Register::Sp => cpu.sp,
    }
}

/// Writes a register; a byte takes the low half. X in the CCR is never set here.
pub(super) fn set_register(cpu: &mut Cpu, register: Register, value: u16) {
    match register {
        Register::A => cpu.a = value as u8,
        Register::B => cpu.b = value as u8,
        Register::Ccr => cpu.write_codes(value as u8),
        Register::D => cpu.set_d(value),
        Register::X => cpu.x = value,
        Register::Y => cpu.y = value,
        Register::Sp => cpu.sp = value,
    }
}

/// EXG, 002 p. 6-90 and table A-4. All values are those before the instruction.
fn exg(s: &mut Step, first: Register, second: Register) {
    use Register::{A, B, D};
    let one = register_value(&s.cpu, first);
    let two = register_value(&s.cpu, second);
    match (first, second) {
        // D against its own halves: the table prints what becomes of D.
        (A, D) | (B, D) => s.cpu.set_d(one),
        (D, A) => s.cpu.set_d(one.swap_bytes()),
        (D, B) => s.cpu.a = 0xFF,
        _ if first.is_wide() && !second.is_wide() => {
            let high = if second == A { 0x0000 } else { 0xFF00 };
            set_register(&mut s.cpu, first, high | two);
            set_register(&mut s.cpu, second, one);
        }
        // Equal sizes swap; an 8-bit register first gives $00:r1 and takes the low byte.
        _ => {
            set_register(&mut s.cpu, second, one);
            set_register(&mut s.cpu, first, two);
        }
    }
}
