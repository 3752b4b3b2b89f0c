//! MAXA to RTS (002 p. 6-139 to 6-178).

use crate::codes::{after_logic8, after_shift8, after_subtract8, set_nz8};
use crate::cpu::{Cpu, C, V};
use crate::step::Step;

/// The codes of (A) - (M), which the four 8-bit limit instructions set.
fn limit_codes(s: &mut Step) -> (u8, u8) {
    let (a, m) = (s.cpu.a, s.operand8());
    after_subtract8(&mut s.cpu, a, m, a.wrapping_sub(m));
    (a, m)
}

/// MAXA, 002 p. 6-139.
pub fn maxa(s: &mut Step) {
    let (a, m) = limit_codes(s);
    s.cpu.a = a.max(m);
}

/// MAXM, 002 p. 6-140. The larger value is always stored.
pub fn maxm(s: &mut Step) {
    let (a, m) = limit_codes(s);
    s.write8(s.address(), a.max(m));
}

// MEM, 002 p. 6-141, stops the machine.

/// MINA, 002 p. 6-142.
pub fn mina(s: &mut Step) {
    let (a, m) = limit_codes(s);
    s.cpu.a = a.min(m);
}

/// MINM, 002 p. 6-143. The smaller value is always stored.
pub fn minm(s: &mut Step) {
    let (a, m) = limit_codes(s);
    s.write8(s.address(), a.min(m));
}

/// MOVB, 002 p. 6-144. No code changes.
pub fn movb(s: &mut Step) {
    let value = s.operand8();
    s.write8(s.destination, value);
}

/// MOVW, 002 p. 6-145. No code changes.
pub fn movw(s: &mut Step) {
    let value = s.operand16();
    s.write16(s.destination, value);
}

/// MUL, 002 p. 6-146: (A) x (B) => A:B; C is bit 7 and no other code changes.
pub fn mul(s: &mut Step) {
    let product = u16::from(s.cpu.a) * u16::from(s.cpu.b);
    s.cpu.set_d(product);
    s.cpu.set_flag(C, product & 0x80 != 0);
}

/// 0 - value, with V set for a result of $80 and C for any but $00.
fn negated(cpu: &mut Cpu, value: u8) -> u8 {
    let result = 0u8.wrapping_sub(value);
    set_nz8(cpu, result);
    cpu.set_flag(V, result == 0x80);
    cpu.set_flag(C, result != 0);
    result
}

/// NEG, 002 p. 6-147.
pub fn neg(s: &mut Step) {
    let before = s.operand8();
    let result = negated(&mut s.cpu, before);
    s.write8(s.address(), result);
}

/// NEGA, 002 p. 6-148.
pub fn nega(s: &mut Step) {
    let before = s.cpu.a;
    s.cpu.a = negated(&mut s.cpu, before);
}

/// NEGB, 002 p. 6-149.
pub fn negb(s: &mut Step) {
    let before = s.cpu.b;
    s.cpu.b = negated(&mut s.cpu, before);
}

/// NOP, 002 p. 6-150.
pub fn nop(_: &mut Step) {}

/// ORAA, 002 p. 6-151.
pub fn oraa(s: &mut Step) {
    s.cpu.a |= s.operand8();
    let result = s.cpu.a;
    after_logic8(&mut s.cpu, result);
}

/// ORAB, 002 p. 6-152.
pub fn orab(s: &mut Step) {
    s.cpu.b |= s.operand8();
    let result = s.cpu.b;
    after_logic8(&mut s.cpu, result);
}

/// ORCC, 002 p. 6-153: every bit of the mask is set but X. Also SEC, SEI and SEV.
pub fn orcc(s: &mut Step) {
    let result = s.cpu.ccr | s.operand8();
    s.cpu.write_codes(result);
}

/// PSHA, 002 p. 6-154.
pub fn psha(s: &mut Step) {
    s.push8(s.cpu.a);
}

/// PSHB, 002 p. 6-155.
pub fn pshb(s: &mut Step) {
    s.push8(s.cpu.b);
}

/// PSHC, 002 p. 6-156.
pub fn pshc(s: &mut Step) {
    s.push8(s.cpu.ccr);
}

/// PSHD, 002 p. 6-157: A lies below B here.
pub fn pshd(s: &mut Step) {
    s.push16(s.cpu.d());
}

/// PSHX, 002 p. 6-158.
pub fn pshx(s: &mut Step) {
    s.push16(s.cpu.x);
}

/// PSHY, 002 p. 6-159.
pub fn pshy(s: &mut Step) {
    s.push16(s.cpu.y);
}

/// PULA, 002 p. 6-160.
pub fn pula(s: &mut Step) {
    s.cpu.a = s.pull8();
}

/// PULB, 002 p. 6-161.
pub fn pulb(s: &mut Step) {
    s.cpu.b = s.pull8();
}

/// PULC, 002 p. 6-162. X may fall but never rise.
pub fn pulc(s: &mut Step) {
    let pulled = s.pull8();
    s.cpu.write_codes(pulled);
}

/// PULD, 002 p. 6-163.
pub fn puld(s: &mut Step) {
    let pulled = s.pull16();
    s.cpu.set_d(pulled);
}

/// PULX, 002 p. 6-164.
pub fn pulx(s: &mut Step) {
    s.cpu.x = s.pull16();
}

/// PULY, 002 p. 6-165.
pub fn puly(s: &mut Step) {
    s.cpu.y = s.pull16();
}

// REV and REVW, 002 p. 6-166 and 6-168, stop the machine.

/// One place left through the carry; sets the codes.
fn rotated_left(cpu: &mut Cpu, before: u8) -> u8 {
    let result = before << 1 | u8::from(cpu.flag(C));
    after_shift8(cpu, result, before & 0x80 != 0);
    result
}

/// One place right through the carry; sets the codes.
fn rotated_right(cpu: &mut Cpu, before: u8) -> u8 {
    let result = before >> 1 | u8::from(cpu.flag(C)) << 7;
    after_shift8(cpu, result, before & 1 != 0);
    result
}

/// ROL, 002 p. 6-170.
pub fn rol(s: &mut Step) {
    let before = s.operand8();
    let result = rotated_left(&mut s.cpu, before);
    s.write8(s.address(), result);
}

/// ROLA, 002 p. 6-171.
pub fn rola(s: &mut Step) {
    let before = s.cpu.a;
    s.cpu.a = rotated_left(&mut s.cpu, before);
}

/// ROLB, 002 p. 6-172.
pub fn rolb(s: &mut Step) {
    let before = s.cpu.b;
    s.cpu.b = rotated_left(&mut s.cpu, before);
}

/// ROR, 002 p. 6-173.
pub fn ror(s: &mut Step) {
    let before = s.operand8();
    let result = rotated_right(&mut s.cpu, before);
    s.write8(s.address(), result);
}

/// RORA, 002 p. 6-174.
pub fn rora(s: &mut Step) {
    let before = s.cpu.a;
    s.cpu.a = rotated_right(&mut s.cpu, before);
}

/// RORB, 002 p. 6-175.
pub fn rorb(s: &mut Step) {
    let before = s.cpu.b;
    s.cpu.b = rotated_right(&mut s.cpu, before);
}

// RTC, 002 p. 6-176, stops the machine.

/// RTI, 002 p. 6-177: CCR, B, A, X, Y and PC in the order in which they lie. X may fall
/// but never rise. Another request that is found then is the boundary's.
pub fn rti(s: &mut Step) {
    let codes = s.pull8();
    s.cpu.write_codes(codes);
    s.cpu.b = s.pull8();
    s.cpu.a = s.pull8();
    s.cpu.x = s.pull16();
    s.cpu.y = s.pull16();
    s.cpu.pc = s.pull16();
}

/// RTS, 002 p. 6-178.
pub fn rts(s: &mut Step) {
    s.cpu.pc = s.pull16();
}
