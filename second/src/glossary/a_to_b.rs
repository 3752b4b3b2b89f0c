//! ABA to BVS (002 p. 6-8 to 6-51).

use crate::codes::{after_add16, after_add8, after_logic8, after_shift16, after_shift8};
use crate::cpu::{C, N, V, Z};
use crate::step::Step;

/// ABA, 002 p. 6-8: (A) + (B) => A.
pub fn aba(s: &mut Step) {
    let (a, b) = (s.cpu.a, s.cpu.b);
    let result = a.wrapping_add(b);
    s.cpu.a = result;
    after_add8(&mut s.cpu, a, b, result);
}

// ABX, 002 p. 6-9, is LEAX B,X. ABY, 002 p. 6-10, is LEAY B,Y.

/// ADCA, 002 p. 6-11: (A) + (M) + C => A.
pub fn adca(s: &mut Step) {
    let (a, m) = (s.cpu.a, s.operand8());
    let result = a.wrapping_add(m).wrapping_add(u8::from(s.cpu.flag(C)));
    s.cpu.a = result;
    after_add8(&mut s.cpu, a, m, result);
}

/// ADCB, 002 p. 6-12: (B) + (M) + C => B.
pub fn adcb(s: &mut Step) {
    let (b, m) = (s.cpu.b, s.operand8());
    let result = b.wrapping_add(m).wrapping_add(u8::from(s.cpu.flag(C)));
    s.cpu.b = result;
    after_add8(&mut s.cpu, b, m, result);
}

/// ADDA, 002 p. 6-13: (A) + (M) => A.
pub fn adda(s: &mut Step) {
    let (a, m) = (s.cpu.a, s.operand8());
    let result = a.wrapping_add(m);
    s.cpu.a = result;
    after_add8(&mut s.cpu, a, m, result);
}

/// ADDB, 002 p. 6-14: (B) + (M) => B.
pub fn addb(s: &mut Step) {
    let (b, m) = (s.cpu.b, s.operand8());
    let result = b.wrapping_add(m);
    s.cpu.b = result;
    after_add8(&mut s.cpu, b, m, result);
}

/// ADDD, 002 p. 6-15: (A:B) + (M:M+1) => A:B. H is not touched.
pub fn addd(s: &mut Step) {
    let (d, m) = (s.cpu.d(), s.operand16());
    let result = d.wrapping_add(m);
    s.cpu.set_d(result);
    after_add16(&mut s.cpu, d, m, result);
}

/// ANDA, 002 p. 6-16: (A) and (M) => A.
pub fn anda(s: &mut Step) {
    s.cpu.a &= s.operand8();
    let result = s.cpu.a;
    after_logic8(&mut s.cpu, result);
}

/// ANDB, 002 p. 6-17: (B) and (M) => B.
pub fn andb(s: &mut Step) {
    s.cpu.b &= s.operand8();
    let result = s.cpu.b;
    after_logic8(&mut s.cpu, result);
}

/// ANDCC, 002 p. 6-18: (CCR) and mask => CCR. Also CLC, CLI and CLV.
pub fn andcc(s: &mut Step) {
    let result = s.cpu.ccr & s.operand8();
    s.cpu.write_codes(result);
}

/// One place left, bit 0 cleared; gives the result and the bit that left.
fn shift_left8(value: u8) -> (u8, bool) {
    (value << 1, value & 0x80 != 0)
}

/// One place right, bit 7 held; gives the result and the bit that left.
fn arithmetic_right8(value: u8) -> (u8, bool) {
    (value >> 1 | value & 0x80, value & 1 != 0)
}

/// ASL, 002 p. 6-19, the same cell as LSL, 002 p. 6-131.
pub fn asl(s: &mut Step) {
    let (result, out) = shift_left8(s.operand8());
    s.write8(s.address(), result);
    after_shift8(&mut s.cpu, result, out);
}

/// ASLA, 002 p. 6-20, the same cell as LSLA, 002 p. 6-132.
pub fn asla(s: &mut Step) {
    let (result, out) = shift_left8(s.cpu.a);
    s.cpu.a = result;
    after_shift8(&mut s.cpu, result, out);
}

/// ASLB, 002 p. 6-21, the same cell as LSLB, 002 p. 6-133.
pub fn aslb(s: &mut Step) {
    let (result, out) = shift_left8(s.cpu.b);
    s.cpu.b = result;
    after_shift8(&mut s.cpu, result, out);
}

/// ASLD, 002 p. 6-22, the same cell as LSLD, 002 p. 6-134.
pub fn asld(s: &mut Step) {
    let d = s.cpu.d();
    let result = d << 1;
    s.cpu.set_d(result);
    after_shift16(&mut s.cpu, result, d & 0x8000 != 0);
}

/// ASR, 002 p. 6-23.
pub fn asr(s: &mut Step) {
    let (result, out) = arithmetic_right8(s.operand8());
    s.write8(s.address(), result);
    after_shift8(&mut s.cpu, result, out);
}

/// ASRA, 002 p. 6-24.
pub fn asra(s: &mut Step) {
    let (result, out) = arithmetic_right8(s.cpu.a);
    s.cpu.a = result;
    after_shift8(&mut s.cpu, result, out);
}

/// ASRB, 002 p. 6-25.
pub fn asrb(s: &mut Step) {
    let (result, out) = arithmetic_right8(s.cpu.b);
    s.cpu.b = result;
    after_shift8(&mut s.cpu, result, out);
}

/// BCC, 002 p. 6-26, and BHS, 002 p. 6-34: C = 0.
pub fn bcc(s: &mut Step) {
    s.branch_if(!s.cpu.flag(C));
}

/// BCLR, 002 p. 6-27: (M) and not mask => M.
pub fn bclr(s: &mut Step) {
    let result = s.operand8() & !s.mask;
    s.write8(s.address(), result);
    after_logic8(&mut s.cpu, result);
}

/// BCS, 002 p. 6-28, and BLO, 002 p. 6-38: C = 1.
pub fn bcs(s: &mut Step) {
    s.branch_if(s.cpu.flag(C));
}

/// BEQ, 002 p. 6-29: Z = 1.
pub fn beq(s: &mut Step) {
    s.branch_if(s.cpu.flag(Z));
}

/// BGE, 002 p. 6-30: N xor V = 0.
pub fn bge(s: &mut Step) {
    s.branch_if(s.cpu.flag(N) == s.cpu.flag(V));
}

// BGND, 002 p. 6-31, stops the machine.

/// BGT, 002 p. 6-32: Z or (N xor V) = 0.
pub fn bgt(s: &mut Step) {
    s.branch_if(!(s.cpu.flag(Z) || s.cpu.flag(N) != s.cpu.flag(V)));
}

/// BHI, 002 p. 6-33: C or Z = 0.
pub fn bhi(s: &mut Step) {
    s.branch_if(!(s.cpu.flag(C) || s.cpu.flag(Z)));
}

/// BITA, 002 p. 6-35: the codes of (A) and (M).
pub fn bita(s: &mut Step) {
    let result = s.cpu.a & s.operand8();
    after_logic8(&mut s.cpu, result);
}

/// BITB, 002 p. 6-36: the codes of (B) and (M).
pub fn bitb(s: &mut Step) {
    let result = s.cpu.b & s.operand8();
    after_logic8(&mut s.cpu, result);
}

/// BLE, 002 p. 6-37: Z or (N xor V) = 1.
pub fn ble(s: &mut Step) {
    s.branch_if(s.cpu.flag(Z) || s.cpu.flag(N) != s.cpu.flag(V));
}

/// BLS, 002 p. 6-39: C or Z = 1.
pub fn bls(s: &mut Step) {
    s.branch_if(s.cpu.flag(C) || s.cpu.flag(Z));
}

/// BLT, 002 p. 6-40: N xor V = 1.
pub fn blt(s: &mut Step) {
    s.branch_if(s.cpu.flag(N) != s.cpu.flag(V));
}

/// BMI, 002 p. 6-41: N = 1.
pub fn bmi(s: &mut Step) {
    s.branch_if(s.cpu.flag(N));
}

/// BNE, 002 p. 6-42: Z = 0.
pub fn bne(s: &mut Step) {
    s.branch_if(!s.cpu.flag(Z));
}

/// BPL, 002 p. 6-43: N = 0.
pub fn bpl(s: &mut Step) {
    s.branch_if(!s.cpu.flag(N));
}

/// BRA, 002 p. 6-44.
pub fn bra(s: &mut Step) {
    s.branch();
}

/// BRCLR, 002 p. 6-45: branch if (M) and mask = 0.
pub fn brclr(s: &mut Step) {
    s.branch_if(s.operand8() & s.mask == 0);
}

/// BRN, 002 p. 6-46.
pub fn brn(_: &mut Step) {}

/// BRSET, 002 p. 6-47: branch if not (M) and mask = 0.
pub fn brset(s: &mut Step) {
    s.branch_if(!s.operand8() & s.mask == 0);
}

/// BSET, 002 p. 6-48: (M) or mask => M.
pub fn bset(s: &mut Step) {
    let result = s.operand8() | s.mask;
    s.write8(s.address(), result);
    after_logic8(&mut s.cpu, result);
}

/// BSR, 002 p. 6-49.
pub fn bsr(s: &mut Step) {
    s.push16(s.cpu.pc);
    s.branch();
}

/// BVC, 002 p. 6-50: V = 0.
pub fn bvc(s: &mut Step) {
    s.branch_if(!s.cpu.flag(V));
}

/// BVS, 002 p. 6-51: V = 1.
pub fn bvs(s: &mut Step) {
    s.branch_if(s.cpu.flag(V));
}
