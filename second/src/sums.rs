//! Checksums of the 8-bit operations over all their operands (docs/CHECKSUMS.md).
//!
//! Nothing is calculated here but the sums: each combination of operands is laid out for an
//! instruction of the machine, and a step of the machine gives the value and the codes.

use crate::cpu::{Cpu, C, H};
use crate::machine::{step, Reply};
use crate::memory::{read8, SIZE};

/// Where the instruction stands, away from the byte that it may work on.
const CODE: u16 = 0x4000;
/// The byte in memory that an instruction works on, within reach of direct addressing.
const CELL: u16 = 0x0055;
/// The same address as the object code of direct addressing gives it.
const DIRECT: u8 = CELL as u8;
/// The postbyte of 0,X, with which CELL is addressed by X.
const AT_X: u8 = 0x00;
/// The offset of the bit branches; not 0, so that PC tells whether they were taken.
const OFFSET: u8 = 0x10;
/// Stands in the object code where an operand will be written.
const TO_FILL: u8 = 0x00;

/// Where an operand goes before the step.
#[derive(Clone, Copy)]
enum Place {
    A,
    B,
    Cell,
    /// A byte of the object code, counted from the opcode or its prebyte: immediate data or
    /// a mask.
    Code(u16),
}

/// What is folded in as the value after the step.
#[derive(Clone, Copy)]
enum Value {
    A,
    /// Two bytes, the high one first.
    D,
    Cell,
    /// 1 if the branch was taken, 0 if not.
    Taken,
}

/// An operation and the instruction that stands for it.
struct Operation {
    name: &'static str,
    code: &'static [u8],
    x: Place,
    /// None if the operation has a single operand.
    m: Option<Place>,
    value: Value,
    codes_before: &'static [u8],
}

/// C outermost, clear first.
const CARRIES: &[u8] = &[0, C];
/// DAA depends on H as well, which is the outer of the two.
const HALF_CARRIES: &[u8] = &[0, C, H, H | C];

const fn binary(
    name: &'static str,
    code: &'static [u8],
    x: Place,
    m: Place,
    value: Value,
) -> Operation {
    Operation { name, code, x, m: Some(m), value, codes_before: CARRIES }
}

/// A and immediate data.
const fn immediate(name: &'static str, code: &'static [u8]) -> Operation {
    binary(name, code, Place::A, Place::Code(1), Value::A)
}

/// A and a byte in memory.
const fn limit(name: &'static str, code: &'static [u8]) -> Operation {
    binary(name, code, Place::A, Place::Cell, Value::A)
}

/// A byte in memory and a mask, which follows the opcode and the direct address.
const fn masked(name: &'static str, code: &'static [u8], value: Value) -> Operation {
    binary(name, code, Place::Cell, Place::Code(2), value)
}

/// One operand, and the value in A.
const fn unary(name: &'static str, code: &'static [u8], x: Place) -> Operation {
    Operation { name, code, x, m: None, value: Value::A, codes_before: CARRIES }
}

/// In the order of the lines.
const OPERATIONS: &[Operation] = &[
    immediate("ADD", &[0x8B, TO_FILL]),
    immediate("ADC", &[0x89, TO_FILL]),
    immediate("SUB", &[0x80, TO_FILL]),
    immediate("SBC", &[0x82, TO_FILL]),
    immediate("AND", &[0x84, TO_FILL]),
    immediate("OR", &[0x8A, TO_FILL]),
    immediate("EOR", &[0x88, TO_FILL]),
    immediate("BIT", &[0x85, TO_FILL]),
    immediate("CMP", &[0x81, TO_FILL]),
    masked("BSET", &[0x4C, DIRECT, TO_FILL], Value::Cell),
    masked("BCLR", &[0x4D, DIRECT, TO_FILL], Value::Cell),
    limit("MAX", &[0x18, 0x18, AT_X]),
    limit("MIN", &[0x18, 0x19, AT_X]),
    masked("BRSET", &[0x4E, DIRECT, TO_FILL, OFFSET], Value::Taken),
    masked("BRCLR", &[0x4F, DIRECT, TO_FILL, OFFSET], Value::Taken),
    binary("MUL", &[0x12], Place::A, Place::B, Value::D),
    unary("CLR", &[0x87], Place::A),
    unary("COM", &[0x41], Place::A),
    unary("NEG", &[0x40], Place::A),
    unary("INC", &[0x42], Place::A),
    unary("DEC", &[0x43], Place::A),
    unary("ASL", &[0x48], Place::A),
    unary("LSR", &[0x44], Place::A),
    unary("ASR", &[0x47], Place::A),
    unary("ROL", &[0x45], Place::A),
    unary("ROR", &[0x46], Place::A),
    unary("TST", &[0x97], Place::A),
    unary("LD", &[0x86, TO_FILL], Place::Code(1)),
    Operation { codes_before: HALF_CARRIES, ..unary("DAA", &[0x18, 0x07], Place::A) },
];

/// All lines: the name of an operation and its checksum in decimal.
pub fn lines() -> Vec<String> {
    let mut memory = vec![0; SIZE];
    let line = |operation: &Operation| format!("{} {}", operation.name, operation.sum(&mut memory));
    OPERATIONS.iter().map(line).collect()
}

impl Operation {
    /// The same memory serves every operation, for each lays down all that it reads.
    fn sum(&self, memory: &mut [u8]) -> u32 {
        for (address, &byte) in (CODE..).zip(self.code) {
            memory[usize::from(address)] = byte;
        }
        let last_m = if self.m.is_some() { 255 } else { 0 };
        let mut sum = 1;
        for &codes in self.codes_before {
            for x in 0..=255 {
                for m in 0..=last_m {
                    let before = self.registers_before(memory, codes, x, m);
                    sum = self.fold_step(sum, memory, before);
                }
            }
        }
        sum
    }

    /// Puts the operands in their places. Both are put anew for every step, since the one
    /// before may have changed the byte in memory.
    fn registers_before(&self, memory: &mut [u8], codes: u8, x: u8, m: u8) -> Cpu {
        let mut cpu = Cpu { pc: CODE, x: CELL, ccr: codes, ..Cpu::default() };
        self.x.put(x, &mut cpu, memory);
        if let Some(place) = self.m {
            place.put(m, &mut cpu, memory);
        }
        cpu
    }

    /// One step from the registers given: its value, then its codes.
    fn fold_step(&self, sum: u32, memory: &mut [u8], mut cpu: Cpu) -> u32 {
        let outcome = step(&mut cpu, memory, 0);
        assert_eq!(outcome.reply, Reply::Done, "the step of {}", self.name);
        let with_value = match self.value {
            Value::A => fold(sum, cpu.a),
            Value::D => fold(fold(sum, cpu.a), cpu.b),
            Value::Cell => fold(sum, read8(memory, CELL)),
            Value::Taken => fold(sum, u8::from(self.branched(&cpu))),
        };
        fold(with_value, cpu.ccr)
    }

    /// PC is at the target or behind the instruction; anywhere else it would be wrong.
    fn branched(&self, cpu: &Cpu) -> bool {
        let not_taken = CODE + self.code.len() as u16;
        let taken = not_taken + u16::from(OFFSET);
        assert!(cpu.pc == taken || cpu.pc == not_taken, "the branch of {}", self.name);
        cpu.pc == taken
    }
}

impl Place {
    fn put(self, operand: u8, cpu: &mut Cpu, memory: &mut [u8]) {
        match self {
            Place::A => cpu.a = operand,
            Place::B => cpu.b = operand,
            Place::Cell => memory[usize::from(CELL)] = operand,
            Place::Code(nth) => memory[usize::from(CODE + nth)] = operand,
        }
    }
}

/// The sum with one byte more, kept to 32 bits.
fn fold(sum: u32, byte: u8) -> u32 {
    sum.wrapping_mul(31).wrapping_add(u32::from(byte))
}
