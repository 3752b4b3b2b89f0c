//! A random program: blocks of instructions that stay in the data below $2000, and a jump back to the first.
//!
//! A block begins with LDX, LDY and LDS, and none of its instructions moves X, Y or SP far, so no store reaches the code.

use crate::images::START;
use second::random::Random;

const BLOCKS: u32 = 64;
const BLOCK_LENGTH: u32 = 24;

/// A subroutine that the program calls, behind it.
const SUBROUTINE: u16 = 0x8000;

pub fn random(seed: u64) -> Vec<u8> {
    let mut random = Random::new(seed);
    let mut code = Vec::new();
    for _ in 0..BLOCKS {
        begin_block(&mut random, &mut code);
        for _ in 0..BLOCK_LENGTH {
            append(&mut random, &mut code);
        }
    }
    code.push(0x06); // JMP
    code.extend_from_slice(&START.to_be_bytes());
    code.resize(usize::from(SUBROUTINE - START), 0xA7); // NOP
    code.extend_from_slice(&[0x42, 0x3D]); // INCA, RTS
    code
}

/// X and Y lie in the data with room on both sides.
fn begin_block(random: &mut Random, code: &mut Vec<u8>) {
    let [x, y] = [random.between(0x1000, 0x13FF), random.between(0x1400, 0x17FF)];
    code.extend_from_slice(&[0xCE, (x >> 8) as u8, x as u8]); // LDX #
    code.extend_from_slice(&[0xCD, (y >> 8) as u8, y as u8]); // LDY #
    code.extend_from_slice(&[0xCF, 0x20, 0x00]); // LDS #$2000
}

/// One piece, and before every fifth a short branch that leaps over it or does not.
fn append(random: &mut Random, code: &mut Vec<u8>) {
    let piece = piece(random);
    if random.chance(20) {
        code.extend_from_slice(&[0x20 + random.below(16) as u8, piece.len() as u8]);
    }
    code.extend_from_slice(&piece);
}

/// Loads, sums and comparisons of A and B with immediate data. The same with direct, indexed and extended operands are $10, $20
/// and $30 further on. SUB, CMP, SBC, AND, BIT, LD, EOR, ADC, ORA, ADD.
const BYTE_OPERATIONS: [u8; 20] = [
    0x80, 0x81, 0x82, 0x84, 0x85, 0x86, 0x88, 0x89, 0x8A, 0x8B, 0xC0, 0xC1, 0xC2, 0xC4, 0xC5, 0xC6,
    0xC8, 0xC9, 0xCA, 0xCB,
];

/// SUBD, CPD, CPY, CPX, ADDD and LDD, likewise.
const WORD_OPERATIONS: [u8; 6] = [0x83, 0x8C, 0x8D, 0x8E, 0xC3, 0xCC];

/// STAA, STAB, STD, STY and STX with a direct operand; $10 and $20 further on indexed and extended.
const STORES: [u8; 5] = [0x5A, 0x5B, 0x5C, 0x5D, 0x5E];

/// NEG, COM, INC, DEC, LSR, ROL, ROR, ASR, ASL and CLR with an indexed operand; extended $10 further on.
const IN_MEMORY: [u8; 10] = [0x60, 0x61, 0x62, 0x63, 0x64, 0x65, 0x66, 0x67, 0x68, 0x69];

/// What has no operand: the same on A and on B, and CLR, TST, INX, DEX, INY, DEY, MUL, ASLD and LSRD.
const INHERENT: [u8; 29] = [
    0x40, 0x41, 0x42, 0x43, 0x44, 0x45, 0x46, 0x47, 0x48, 0x50, 0x51, 0x52, 0x53, 0x54, 0x55, 0x56,
    0x57, 0x58, 0x87, 0xC7, 0x97, 0xD7, 0x08, 0x09, 0x02, 0x03, 0x12, 0x59, 0x49,
];

/// DAA, ABA, SBA, CBA, TAB, TBA; EXG A,B; TFR A,B; PSHD and PULD; PSHX and PULX; a call of the subroutine.
const FIXED: [&[u8]; 11] = [
    &[0x18, 0x07],
    &[0x18, 0x06],
    &[0x18, 0x16],
    &[0x18, 0x17],
    &[0x18, 0x0E],
    &[0x18, 0x0F],
    &[0xB7, 0x81],
    &[0xB7, 0x01],
    &[0x3B, 0x3A],
    &[0x34, 0x30],
    &[0x16, (SUBROUTINE >> 8) as u8, SUBROUTINE as u8],
];

fn piece(random: &mut Random) -> Vec<u8> {
    match random.below(12) {
        0 => vec![random.pick(&BYTE_OPERATIONS), random.byte()],
        1 => vec![random.pick(&WORD_OPERATIONS), random.byte(), random.byte()],
        2 => vec![random.pick(&BYTE_OPERATIONS) + 0x10, random.byte()],
        3 => extended(random.pick(&BYTE_OPERATIONS) + 0x30, random),
        4 => extended(random.pick(&STORES) + 0x20, random),
        5 => extended(random.pick(&IN_MEMORY) + 0x10, random),
        6 => indexed(random.pick(&BYTE_OPERATIONS) + 0x20, random),
        7 => indexed(random.pick(&WORD_OPERATIONS) + 0x20, random),
        8 => indexed(random.pick(&STORES) + 0x10, random),
        9 => indexed(random.pick(&IN_MEMORY), random),
        10 => vec![random.pick(&INHERENT)],
        _ => random.pick(&FIXED).to_vec(),
    }
}

/// An operand at $1000 to $1BFF.
fn extended(opcode: u8, random: &mut Random) -> Vec<u8> {
    vec![opcode, random.between(0x10, 0x1B) as u8, random.byte()]
}

/// X or Y as a base: a 5-bit offset, a step before or after, a 9-bit offset, A or B as an offset.
fn indexed(opcode: u8, random: &mut Random) -> Vec<u8> {
    let base = random.below(2) as u8;
    match random.below(4) {
        0 => vec![opcode, base << 6 | random.below(32) as u8],
        1 => vec![opcode, base << 6 | 0x20 | random.below(32) as u8],
        2 => vec![opcode, 0xE0 | base << 3 | random.below(2) as u8, random.byte()],
        _ => vec![opcode, 0xE4 | base << 3 | random.below(2) as u8],
    }
}
