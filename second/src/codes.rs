//! Condition codes by the Boolean formulas that the glossary prints (002 section 6).
//!
//! `x` is the register operand, `m` the memory operand, `r` the result; `n` is the
//! number of the bit that a formula speaks of.

use crate::cpu::{Cpu, C, H, N, V, Z};

fn bit(value: u32, n: u32) -> bool {
    value >> n & 1 == 1
}

/// Carry of an addition: Xn*Mn + Mn*/Rn + /Rn*Xn (ADDA, 002 p. 6-13).
pub fn carry(x: u32, m: u32, r: u32, n: u32) -> bool {
    let (xn, mn, rn) = (bit(x, n), bit(m, n), bit(r, n));
    (xn && mn) || (mn && !rn) || (!rn && xn)
}

/// Overflow of an addition: Xn*Mn*/Rn + /Xn*/Mn*Rn (ADDA, 002 p. 6-13).
pub fn addition_overflow(x: u32, m: u32, r: u32, n: u32) -> bool {
    let (xn, mn, rn) = (bit(x, n), bit(m, n), bit(r, n));
    (xn && mn && !rn) || (!xn && !mn && rn)
}

/// Borrow of a subtraction: /Xn*Mn + Mn*Rn + Rn*/Xn (SUBA, 002 p. 6-193).
/// The compare pages (CBA, CMPA, CPD and their like) print the last term as a sum;
/// SUBA's page is the right one.
pub fn borrow(x: u32, m: u32, r: u32, n: u32) -> bool {
    let (xn, mn, rn) = (bit(x, n), bit(m, n), bit(r, n));
    (!xn && mn) || (mn && rn) || (rn && !xn)
}

/// Overflow of a subtraction: Xn*/Mn*/Rn + /Xn*Mn*Rn (SUBA, 002 p. 6-193).
pub fn subtraction_overflow(x: u32, m: u32, r: u32, n: u32) -> bool {
    let (xn, mn, rn) = (bit(x, n), bit(m, n), bit(r, n));
    (xn && !mn && !rn) || (!xn && mn && rn)
}

/// N and Z of a byte.
pub fn set_nz8(cpu: &mut Cpu, r: u8) {
    cpu.set_flag(N, r & 0x80 != 0);
    cpu.set_flag(Z, r == 0);
}

/// N and Z of a word.
pub fn set_nz16(cpu: &mut Cpu, r: u16) {
    cpu.set_flag(N, r & 0x8000 != 0);
    cpu.set_flag(Z, r == 0);
}

/// H, N, Z, V and C of an 8-bit addition (002 p. 6-11 to 6-14).
pub fn after_add8(cpu: &mut Cpu, x: u8, m: u8, r: u8) {
    let (x, m, wide) = (u32::from(x), u32::from(m), u32::from(r));
    cpu.set_flag(H, carry(x, m, wide, 3));
    set_nz8(cpu, r);
    cpu.set_flag(V, addition_overflow(x, m, wide, 7));
    cpu.set_flag(C, carry(x, m, wide, 7));
}

/// N, Z, V and C of a 16-bit addition (ADDD, 002 p. 6-15). H is left alone.
pub fn after_add16(cpu: &mut Cpu, x: u16, m: u16, r: u16) {
    let (x, m, wide) = (u32::from(x), u32::from(m), u32::from(r));
    set_nz16(cpu, r);
    cpu.set_flag(V, addition_overflow(x, m, wide, 15));
    cpu.set_flag(C, carry(x, m, wide, 15));
}

/// N, Z, V and C of an 8-bit subtraction or comparison (002 p. 6-193).
pub fn after_subtract8(cpu: &mut Cpu, x: u8, m: u8, r: u8) {
    let (x, m, wide) = (u32::from(x), u32::from(m), u32::from(r));
    set_nz8(cpu, r);
    cpu.set_flag(V, subtraction_overflow(x, m, wide, 7));
    cpu.set_flag(C, borrow(x, m, wide, 7));
}

/// N, Z, V and C of a 16-bit subtraction or comparison (002 p. 6-195).
pub fn after_subtract16(cpu: &mut Cpu, x: u16, m: u16, r: u16) {
    let (x, m, wide) = (u32::from(x), u32::from(m), u32::from(r));
    set_nz16(cpu, r);
    cpu.set_flag(V, subtraction_overflow(x, m, wide, 15));
    cpu.set_flag(C, borrow(x, m, wide, 15));
}

/// N and Z of a byte, V cleared, C left alone: loads, stores and logic.
pub fn after_logic8(cpu: &mut Cpu, r: u8) {
    set_nz8(cpu, r);
    cpu.set_flag(V, false);
}

/// The same for a word.
pub fn after_logic16(cpu: &mut Cpu, r: u16) {
    set_nz16(cpu, r);
    cpu.set_flag(V, false);
}

/// N, Z, C and V = N xor C after a shift or rotation of a byte (ASL, 002 p. 6-19).
pub fn after_shift8(cpu: &mut Cpu, r: u8, shifted_out: bool) {
    set_nz8(cpu, r);
    cpu.set_flag(C, shifted_out);
    cpu.set_flag(V, cpu.flag(N) != cpu.flag(C));
}

/// The same for D (ASLD, 002 p. 6-22; LSRD, 002 p. 6-138, where N is 0 and V is C).
pub fn after_shift16(cpu: &mut Cpu, r: u16, shifted_out: bool) {
    set_nz16(cpu, r);
    cpu.set_flag(C, shifted_out);
    cpu.set_flag(V, cpu.flag(N) != cpu.flag(C));
}
