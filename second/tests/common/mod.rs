//! A bench for tests: registers and memory that can be set up in a line or two.
#![allow(dead_code)]

pub mod rti;

use second::cpu::Cpu;
use second::machine::{run, step, Outcome, Record, Reply};

pub struct Bench {
    pub cpu: Cpu,
    pub memory: Vec<u8>,
}

impl Bench {
    /// Zero memory, the code given at $4000, CCR $D0 as after a reset, SP $2000.
    pub fn with(code: &[u8]) -> Bench {
        let cpu = Cpu { pc: 0x4000, sp: 0x2000, ccr: 0xD0, ..Cpu::default() };
        let mut bench = Bench { cpu, memory: vec![0; 65_536] };
        bench.put(0x4000, code);
        bench
    }

    /// Lays bytes down, from $FFFF on to $0000.
    pub fn put(&mut self, address: u16, bytes: &[u8]) {
        for (n, &byte) in bytes.iter().enumerate() {
            self.memory[usize::from(address.wrapping_add(n as u16))] = byte;
        }
    }

    pub fn byte(&self, address: u16) -> u8 {
        self.memory[usize::from(address)]
    }

    pub fn word(&self, address: u16) -> u16 {
        u16::from_be_bytes([self.byte(address), self.byte(address.wrapping_add(1))])
    }

    pub fn try_step(&mut self, lines: u8) -> Outcome {
        step(&mut self.cpu, &mut self.memory, lines)
    }

    /// A step that must be done; gives its cycles.
    pub fn step(&mut self) -> u32 {
        self.step_under(0)
    }

    pub fn step_under(&mut self, lines: u8) -> u32 {
        let outcome = self.try_step(lines);
        assert_eq!(outcome.reply, Reply::Done);
        outcome.cycles
    }

    /// Several steps that must be done; gives the sum of their cycles.
    pub fn steps(&mut self, count: u32) -> u32 {
        (0..count).map(|_| self.step()).sum()
    }

    pub fn run(&mut self, schedule: &[Record], budget: u32) -> Outcome {
        run(&mut self.cpu, &mut self.memory, schedule, budget)
    }

    /// N, Z, V and C as the low four bits of the CCR.
    pub fn nzvc(&self) -> u8 {
        self.cpu.ccr & 0x0F
    }
}

/// One inherent or immediate instruction on the given registers.
pub fn after(code: &[u8], prepare: impl Fn(&mut Cpu)) -> Cpu {
    let mut bench = Bench::with(code);
    prepare(&mut bench.cpu);
    bench.step();
    bench.cpu
}
