//! FDIV to LSRD (002 p. 6-91 to 6-138).

use crate::codes::{after_logic16, after_logic8, after_shift16, after_shift8, set_nz16, set_nz8};
use crate::cpu::{Cpu, C, V, Z};
use crate::step::Step;

/// FDIV, 002 p. 6-91: (D) x 65,536 / (X) => X, remainder => D. With a denominator at
/// or below the numerator the quotient is $FFFF; the remainder is then indeterminate,
/// so D is kept. N is not touched.
pub fn fdiv(s: &mut Step) {
    let (numerator, denominator) = (u32::from(s.cpu.d()), u32::from(s.cpu.x));
    let overflow = denominator <= numerator;
    s.cpu.set_flag(V, overflow);
    s.cpu.set_flag(C, denominator == 0);
    if overflow {
        s.cpu.x = 0xFFFF;
    } else {
        s.cpu.x = ((numerator << 16) / denominator) as u16;
        s.cpu.set_d(((numerator << 16) % denominator) as u16);
    }
    s.cpu.set_flag(Z, s.cpu.x == 0);
}

// IBEQ and IBNE, 002 p. 6-92 and 6-93, stand with the other loop primitives.

/// IDIV, 002 p. 6-94: (D) / (X) => X, remainder => D. By zero the quotient is $FFFF
/// and the remainder indeterminate, so D is kept. N is not touched.
pub fn idiv(s: &mut Step) {
    let (dividend, divisor) = (s.cpu.d(), s.cpu.x);
    s.cpu.set_flag(V, false);
    s.cpu.set_flag(C, divisor == 0);
    if divisor == 0 {
        s.cpu.x = 0xFFFF;
    } else {
        s.cpu.x = dividend / divisor;
        s.cpu.set_d(dividend % divisor);
    }
    s.cpu.set_flag(Z, s.cpu.x == 0);
}

/// IDIVS, 002 p. 6-95: the same with signs. By zero D and X stay and N, Z and V are
/// undefined; $8000 / $FFFF overflows, and then N and Z are undefined and no result is
/// given: what is undefined or not given is kept.
pub fn idivs(s: &mut Step) {
    let (dividend, divisor) = (i32::from(s.cpu.d() as i16), i32::from(s.cpu.x as i16));
    s.cpu.set_flag(C, divisor == 0);
    if divisor == 0 {
        return;
    }
    let quotient = dividend / divisor;
    s.cpu.set_flag(V, quotient > 0x7FFF);
    if quotient > 0x7FFF {
        return;
    }
    s.cpu.x = quotient as u16;
    s.cpu.set_d((dividend % divisor) as u16);
    set_nz16(&mut s.cpu, quotient as u16);
}

/// N, Z and V of an increment; C is kept. Overflow only from $7F.
fn incremented(cpu: &mut Cpu, before: u8) -> u8 {
    let result = before.wrapping_add(1);
    set_nz8(cpu, result);
    cpu.set_flag(V, before == 0x7F);
    result
}

/// INC, 002 p. 6-96.
pub fn inc(s: &mut Step) {
    let before = s.operand8();
    let result = incremented(&mut s.cpu, before);
    s.write8(s.address(), result);
}

/// INCA, 002 p. 6-97.
pub fn inca(s: &mut Step) {
    let before = s.cpu.a;
    s.cpu.a = incremented(&mut s.cpu, before);
}

/// INCB, 002 p. 6-98.
pub fn incb(s: &mut Step) {
    let before = s.cpu.b;
    s.cpu.b = incremented(&mut s.cpu, before);
}

// INS, 002 p. 6-99, is LEAS 1,SP.

/// INX, 002 p. 6-100: only Z.
pub fn inx(s: &mut Step) {
    s.cpu.x = s.cpu.x.wrapping_add(1);
    s.cpu.set_flag(Z, s.cpu.x == 0);
}

/// INY, 002 p. 6-101: only Z.
pub fn iny(s: &mut Step) {
    s.cpu.y = s.cpu.y.wrapping_add(1);
    s.cpu.set_flag(Z, s.cpu.y == 0);
}

/// JMP, 002 p. 6-102.
pub fn jmp(s: &mut Step) {
    s.cpu.pc = s.address();
}

/// JSR, 002 p. 6-103. The effective address, a step of its base included, comes first;
/// the return address is pushed from the SP that leaves.
pub fn jsr(s: &mut Step) {
    s.push16(s.cpu.pc);
    s.cpu.pc = s.address();
}

/// LBCC, 002 p. 6-104, and LBHS, 002 p. 6-110.
pub fn lbcc(s: &mut Step) {
    super::bcc(s);
}

/// LBCS, 002 p. 6-105, and LBLO, 002 p. 6-112.
pub fn lbcs(s: &mut Step) {
    super::bcs(s);
}

/// LBEQ, 002 p. 6-106.
pub fn lbeq(s: &mut Step) {
    super::beq(s);
}

/// LBGE, 002 p. 6-107.
pub fn lbge(s: &mut Step) {
    super::bge(s);
}

/// LBGT, 002 p. 6-108.
pub fn lbgt(s: &mut Step) {
    super::bgt(s);
}

/// LBHI, 002 p. 6-109.
pub fn lbhi(s: &mut Step) {
    super::bhi(s);
}

/// LBLE, 002 p. 6-111.
pub fn lble(s: &mut Step) {
    super::ble(s);
}

/// LBLS, 002 p. 6-113.
pub fn lbls(s: &mut Step) {
    super::bls(s);
}

/// LBLT, 002 p. 6-114.
pub fn lblt(s: &mut Step) {
    super::blt(s);
}

/// LBMI, 002 p. 6-115.
pub fn lbmi(s: &mut Step) {
    super::bmi(s);
}

/// LBNE, 002 p. 6-116.
pub fn lbne(s: &mut Step) {
    super::bne(s);
}

/// LBPL, 002 p. 6-117.
pub fn lbpl(s: &mut Step) {
    super::bpl(s);
}

/// LBRA, 002 p. 6-118.
pub fn lbra(s: &mut Step) {
    super::bra(s);
}

/// LBRN, 002 p. 6-119.
pub fn lbrn(_: &mut Step) {}

/// LBVC, 002 p. 6-120.
pub fn lbvc(s: &mut Step) {
    super::bvc(s);
}

/// LBVS, 002 p. 6-121.
pub fn lbvs(s: &mut Step) {
    super::bvs(s);
}

/// LDAA, 002 p. 6-122.
pub fn ldaa(s: &mut Step) {
    s.cpu.a = s.operand8();
    let loaded = s.cpu.a;
    after_logic8(&mut s.cpu, loaded);
}

/// LDAB, 002 p. 6-123.
pub fn ldab(s: &mut Step) {
    s.cpu.b = s.operand8();
    let loaded = s.cpu.b;
    after_logic8(&mut s.cpu, loaded);
}

/// LDD, 002 p. 6-124.
pub fn ldd(s: &mut Step) {
    let loaded = s.operand16();
    s.cpu.set_d(loaded);
    after_logic16(&mut s.cpu, loaded);
}

/// LDS, 002 p. 6-125.
pub fn lds(s: &mut Step) {
    s.cpu.sp = s.operand16();
    let loaded = s.cpu.sp;
    after_logic16(&mut s.cpu, loaded);
}

/// LDX, 002 p. 6-126.
pub fn ldx(s: &mut Step) {
    s.cpu.x = s.operand16();
    let loaded = s.cpu.x;
    after_logic16(&mut s.cpu, loaded);
}

/// LDY, 002 p. 6-127.
pub fn ldy(s: &mut Step) {
    s.cpu.y = s.operand16();
    let loaded = s.cpu.y;
    after_logic16(&mut s.cpu, loaded);
}

/// LEAS, 002 p. 6-128. A step before shows in the result, a step after does not.
pub fn leas(s: &mut Step) {
    s.cpu.sp = s.address();
}

/// LEAX, 002 p. 6-129.
pub fn leax(s: &mut Step) {
    s.cpu.x = s.address();
}

/// LEAY, 002 p. 6-130.
pub fn leay(s: &mut Step) {
    s.cpu.y = s.address();
}

// LSL, LSLA, LSLB and LSLD, 002 p. 6-131 to 6-134, are the cells of ASL to ASLD.

/// LSR, 002 p. 6-135.
pub fn lsr(s: &mut Step) {
    let before = s.operand8();
    s.write8(s.address(), before >> 1);
    after_shift8(&mut s.cpu, before >> 1, before & 1 != 0);
}

/// LSRA, 002 p. 6-136.
pub fn lsra(s: &mut Step) {
    let before = s.cpu.a;
    s.cpu.a = before >> 1;
    after_shift8(&mut s.cpu, before >> 1, before & 1 != 0);
}

/// LSRB, 002 p. 6-137.
pub fn lsrb(s: &mut Step) {
    let before = s.cpu.b;
    s.cpu.b = before >> 1;
    after_shift8(&mut s.cpu, before >> 1, before & 1 != 0);
}

/// LSRD, 002 p. 6-138. V is printed as bit 0, which is N xor C with N clear.
pub fn lsrd(s: &mut Step) {
    let before = s.cpu.d();
    s.cpu.set_d(before >> 1);
    after_shift16(&mut s.cpu, before >> 1, before & 1 != 0);
}
