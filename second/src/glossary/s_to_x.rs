//! SBA to XGDY (002 p. 6-179 to 6-216).

use super::{register_value, set_register};
use crate::codes::{after_logic16, after_logic8, after_subtract16, after_subtract8, set_nz8};
use crate::cpu::{Cpu, C, I};
use crate::postbyte::Register;
use crate::step::Step;

/// SBA, 002 p. 6-179: (A) - (B) => A.
pub fn sba(s: &mut Step) {
    let (a, b) = (s.cpu.a, s.cpu.b);
    let result = a.wrapping_sub(b);
    s.cpu.a = result;
    after_subtract8(&mut s.cpu, a, b, result);
}

/// SBCA, 002 p. 6-180: (A) - (M) - C => A.
pub fn sbca(s: &mut Step) {
    let (a, m) = (s.cpu.a, s.operand8());
    let result = a.wrapping_sub(m).wrapping_sub(u8::from(s.cpu.flag(C)));
    s.cpu.a = result;
    after_subtract8(&mut s.cpu, a, m, result);
}

/// SBCB, 002 p. 6-181: (B) - (M) - C => B.
pub fn sbcb(s: &mut Step) {
    let (b, m) = (s.cpu.b, s.operand8());
    let result = b.wrapping_sub(m).wrapping_sub(u8::from(s.cpu.flag(C)));
    s.cpu.b = result;
    after_subtract8(&mut s.cpu, b, m, result);
}

// SEC, SEI and SEV, 002 p. 6-182 to 6-184, are ORCC. SEX, 002 p. 6-185, is TFR.

/// STAA, 002 p. 6-186.
pub fn staa(s: &mut Step) {
    let stored = s.cpu.a;
    s.write8(s.address(), stored);
    after_logic8(&mut s.cpu, stored);
}

/// STAB, 002 p. 6-187.
pub fn stab(s: &mut Step) {
    let stored = s.cpu.b;
    s.write8(s.address(), stored);
    after_logic8(&mut s.cpu, stored);
}

fn store16(s: &mut Step, stored: u16) {
    s.write16(s.address(), stored);
    after_logic16(&mut s.cpu, stored);
}

/// STD, 002 p. 6-188.
pub fn std(s: &mut Step) {
    store16(s, s.cpu.d());
}

// STOP, 002 p. 6-189, stops the machine.

/// STS, 002 p. 6-190.
pub fn sts(s: &mut Step) {
    store16(s, s.cpu.sp);
}

/// STX, 002 p. 6-191.
pub fn stx(s: &mut Step) {
    store16(s, s.cpu.x);
}

/// STY, 002 p. 6-192.
pub fn sty(s: &mut Step) {
    store16(s, s.cpu.y);
}

/// SUBA, 002 p. 6-193: (A) - (M) => A.
pub fn suba(s: &mut Step) {
    let (a, m) = (s.cpu.a, s.operand8());
    let result = a.wrapping_sub(m);
    s.cpu.a = result;
    after_subtract8(&mut s.cpu, a, m, result);
}

/// SUBB, 002 p. 6-194: (B) - (M) => B.
pub fn subb(s: &mut Step) {
    let (b, m) = (s.cpu.b, s.operand8());
    let result = b.wrapping_sub(m);
    s.cpu.b = result;
    after_subtract8(&mut s.cpu, b, m, result);
}

/// SUBD, 002 p. 6-195: (A:B) - (M:M+1) => A:B.
pub fn subd(s: &mut Step) {
    let (d, m) = (s.cpu.d(), s.operand16());
    let result = d.wrapping_sub(m);
    s.cpu.set_d(result);
    after_subtract16(&mut s.cpu, d, m, result);
}

/// The part that SWI and TRAP share: vector first, then the frame, then I.
fn software_entry(s: &mut Step, vector: u16) {
    let target = s.read16(vector);
    s.push_frame();
    s.cpu.set_flag(I, true);
    s.cpu.pc = target;
}

/// SWI, 002 p. 6-196.
pub fn swi(s: &mut Step) {
    software_entry(s, Cpu::SWI_VECTOR);
}

/// TAB, 002 p. 6-197. Unlike TFR A,B it sets N, Z and V.
pub fn tab(s: &mut Step) {
    s.cpu.b = s.cpu.a;
    let moved = s.cpu.b;
    after_logic8(&mut s.cpu, moved);
}

// TAP, 002 p. 6-198, is TFR A,CCR.

/// TBA, 002 p. 6-199. Unlike TFR B,A it sets N, Z and V.
pub fn tba(s: &mut Step) {
    s.cpu.a = s.cpu.b;
    let moved = s.cpu.a;
    after_logic8(&mut s.cpu, moved);
}

// TBEQ and TBNE, 002 p. 6-200 and 6-202, stand with the other loop primitives.

/// TBL, 002 p. 6-201: Y1 + (B) x (Y2 - Y1) => A, B being a fraction of 256. The
/// product is cut off downward. C is undefined there and is kept.
pub fn tbl(s: &mut Step) {
    let first = i32::from(s.operand8());
    let second = i32::from(s.read8(s.address().wrapping_add(1)));
    let product = i32::from(s.cpu.b) * (second - first);
    let result = first.wrapping_add(product >> 8) as u8;
    s.cpu.a = result;
    set_nz8(&mut s.cpu, result);
}

/// TFR, 002 p. 6-203 and table A-4. A byte to a word is sign-extended (SEX), a word to
/// a byte gives its low half. Also TAP, TPA, TSX, TSY, TXS and TYS.
pub(super) fn tfr(s: &mut Step, from: Register, to: Register) {
    let value = register_value(&s.cpu, from);
    let widened = if to.is_wide() && !from.is_wide() { value as u8 as i8 as u16 } else { value };
    set_register(&mut s.cpu, to, widened);
}

// TPA, 002 p. 6-204, is TFR CCR,A.

/// TRAP, 002 p. 6-205. PC is already past the two bytes.
pub fn trap(s: &mut Step) {
    software_entry(s, Cpu::TRAP_VECTOR);
}

/// N and Z of the value, V 0, C 0.
fn tested(cpu: &mut Cpu, value: u8) {
    after_logic8(cpu, value);
    cpu.set_flag(C, false);
}

/// TST, 002 p. 6-206.
pub fn tst(s: &mut Step) {
    let value = s.operand8();
    tested(&mut s.cpu, value);
}

/// TSTA, 002 p. 6-207.
pub fn tsta(s: &mut Step) {
    let value = s.cpu.a;
    tested(&mut s.cpu, value);
}

/// TSTB, 002 p. 6-208.
pub fn tstb(s: &mut Step) {
    let value = s.cpu.b;
    tested(&mut s.cpu, value);
}

// TSX, TSY, TXS and TYS, 002 p. 6-209 to 6-212, are TFR.

/// WAI, 002 p. 6-213: the frame is pushed and the machine waits.
pub fn wai(s: &mut Step) {
    s.push_frame();
    s.cpu.waiting = true;
}

// WAV, 002 p. 6-214, stops the machine. XGDX and XGDY, 002 p. 6-215 and 6-216, are EXG.
