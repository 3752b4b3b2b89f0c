//! How often a set of cases meets each cell of the map and each address form.

use crate::boundary::{Kind, Next};
use crate::case::{answer_watched, Case, Memories};
use crate::cpu::Cpu;
use crate::machine::Reply;
use crate::memory::read8;
use crate::opcodes::{cell_at, find, Form, Found, PREBYTE};
use crate::postbyte::{Accumulator, Base, Index, IndexForm};

/// The forms that no postbyte names, with the layouts that contain them.
const PLAIN_FORMS: [(&str, &[Form]); 14] = [
    ("INH", &[Form::Inherent]),
    ("IMM8", &[Form::Immediate8]),
    ("IMM16", &[Form::Immediate16]),
    ("DIR", &[Form::Direct, Form::DirectMask, Form::DirectMaskRelative]),
    ("EXT", &[Form::Extended, Form::ExtendedMask, Form::ExtendedMaskRelative]),
    ("REL8", &[Form::Relative8]),
    ("REL16", &[Form::Relative16]),
    ("REL9", &[Form::Loop]),
    ("IMM-EXT", &[Form::MoveImmediate8Extended, Form::MoveImmediate16Extended]),
    ("IMM-IDX", &[Form::MoveImmediate8Indexed, Form::MoveImmediate16Indexed]),
    ("EXT-EXT", &[Form::MoveExtendedExtended]),
    ("EXT-IDX", &[Form::MoveExtendedIndexed]),
    ("IDX-EXT", &[Form::MoveIndexedExtended]),
    ("IDX-IDX", &[Form::MoveIndexedIndexed]),
];

const LINES: usize = Cpu::LINES as usize;

/// Counts, by the numbers that the enumerations and bytes have.
pub struct Coverage {
    pub cases: u64,
    cells: [[u64; 256]; 2],
    layouts: [u64; 27],
    indexed: [u64; 256],
    transfers: [u64; 256],
    loops: [u64; 256],
    /// By the places in `Reply::ALL`.
    replies: [u64; Reply::ALL.len()],
    entries: [u64; LINES],
    wait_ends: [u64; LINES],
    returns: [u64; LINES],
    idle: u64,
}

impl Default for Coverage {
    fn default() -> Coverage {
        Coverage {
            cases: 0,
            cells: [[0; 256]; 2],
            layouts: [0; 27],
            indexed: [0; 256],
            transfers: [0; 256],
            loops: [0; 256],
            replies: [0; Reply::ALL.len()],
            entries: [0; LINES],
            wait_ends: [0; LINES],
            returns: [0; LINES],
            idle: 0,
        }
    }
}

impl Coverage {
    /// Does what the case asks and counts what it meets on the way.
    pub fn add(&mut self, case: &Case, memories: &mut Memories) {
        let answer =
            answer_watched(case, memories, &mut |cpu, memory, next| self.watch(cpu, memory, next));
        self.cases += 1;
        self.replies[answer.outcome.reply as usize] += 1;
    }

    fn watch(&mut self, cpu: &Cpu, memory: &[u8], next: &Next) {
        let found = find(memory, cpu.pc);
        match next {
            Next::Stops | Next::Reserved => self.meet_cell(&found),
            Next::Do(effect) => match effect.kind {
                Kind::Entry(line) => self.entries[usize::from(line)] += 1,
                Kind::WaitEnd(line) => self.wait_ends[usize::from(line)] += 1,
                Kind::Idle => self.idle += 1,
                Kind::ReturnToRequest(line) => {
                    self.returns[usize::from(line)] += 1;
                    self.meet_instruction(memory, &found);
                }
                Kind::Instruction { .. } => self.meet_instruction(memory, &found),
            },
        }
    }

    fn meet_instruction(&mut self, memory: &[u8], found: &Found) {
        self.meet_cell(found);
        self.meet_form(memory, found);
    }

    /// A cell of page 2 is met together with the prebyte.
    fn meet_cell(&mut self, found: &Found) {
        self.cells[usize::from(found.page) - 1][usize::from(found.opcode)] += 1;
        if found.page == 2 {
            self.cells[0][usize::from(PREBYTE)] += 1;
        }
    }

    fn meet_form(&mut self, memory: &[u8], found: &Found) {
        let form = found.cell.form;
        self.layouts[form as usize] += 1;
        let first = usize::from(read8(memory, found.operands));
        match form {
            Form::Transfer => self.transfers[first] += 1,
            Form::Loop => self.loops[first] += 1,
            _ => {}
        }
        for nth in 0..form.indexed_postbytes() {
            let postbyte = read8(memory, found.operands.wrapping_add(nth));
            self.indexed[usize::from(postbyte)] += 1;
        }
    }

    /// Every address form with its count.
    pub fn forms(&self) -> Vec<(String, u64)> {
        let mut forms: Vec<(String, u64)> = Vec::new();
        for (name, layouts) in PLAIN_FORMS {
            let count = layouts.iter().map(|&layout| self.layouts[layout as usize]).sum();
            forms.push((name.to_string(), count));
        }
        let transfers = self.transfers[..0x80].iter().sum();
        let exchanges = self.transfers[0x80..].iter().sum();
        forms.push(("TFR".to_string(), transfers));
        forms.push(("EXG".to_string(), exchanges));
        for postbyte in 0..=255 {
            let index = Index::decode(postbyte);
            let count = self.indexed[usize::from(postbyte)];
            add_to(&mut forms, form_name(index.form()), count);
            add_to(&mut forms, &index_name(index), count);
        }
        forms
    }

    /// The cells and the address forms that were not met.
    pub fn missing(&self) -> Vec<String> {
        let mut missing = Vec::new();
        for page in 1..=2 {
            for opcode in 0..=255 {
                if self.cells[usize::from(page) - 1][usize::from(opcode)] == 0 {
                    missing.push(format!("cell {}", cell_name(page, opcode)));
                }
            }
        }
        for (name, count) in self.forms() {
            if count == 0 {
                missing.push(format!("form {}", name));
            }
        }
        missing
    }

    /// The report, one fact a line.
    pub fn report(&self) -> Vec<String> {
        let mut lines = vec![format!("cases {}", self.cases)];
        for page in 1..=2 {
            for opcode in 0..=255 {
                let count = self.cells[usize::from(page) - 1][usize::from(opcode)];
                lines.push(format!("cell {} {}", cell_name(page, opcode), count));
            }
        }
        for (name, count) in self.forms() {
            lines.push(format!("form {} {}", name, count));
        }
        lines.push(postbyte_line("indexed", &self.indexed));
        lines.push(postbyte_line("transfer", &self.transfers));
        lines.push(postbyte_line("loop", &self.loops));
        for (reply, count) in Reply::ALL.iter().zip(self.replies) {
            lines.push(format!("reply {:X} {}", reply.number(), count));
        }
        for line in 0..LINES {
            let (entries, ends) = (self.entries[line], self.wait_ends[line]);
            let met =
                format!("entries {} wait-ends {} returns {}", entries, ends, self.returns[line]);
            lines.push(format!("line {} {}", line, met));
        }
        lines.push(format!("idle {}", self.idle));
        lines
    }
}

fn cell_name(page: u8, opcode: u8) -> String {
    format!("{} {:02X} {}", page, opcode, cell_at(page, opcode).operation.name())
}

fn postbyte_line(kind: &str, counts: &[u64; 256]) -> String {
    let met = counts.iter().filter(|&&count| count != 0).count();
    format!("postbytes {} {} of 256", kind, met)
}

fn add_to(forms: &mut Vec<(String, u64)>, name: &str, count: u64) {
    match forms.iter_mut().find(|form| form.0 == name) {
        Some(form) => form.1 += count,
        None => forms.push((name.to_string(), count)),
    }
}

fn form_name(form: IndexForm) -> &'static str {
    match form {
        IndexForm::Idx => "IDX",
        IndexForm::Idx1 => "IDX1",
        IndexForm::Idx2 => "IDX2",
        IndexForm::DIdx => "[D,IDX]",
        IndexForm::IndirectIdx2 => "[IDX2]",
    }
}

/// The operand in the manual's syntax, n standing for the offset or the step.
fn index_name(index: Index) -> String {
    let r = match index.base() {
        Base::X => "X",
        Base::Y => "Y",
        Base::Sp => "SP",
        Base::Pc => "PC",
    };
    match index {
        Index::Offset5 { .. } => format!("n5,{}", r),
        Index::StepBefore { amount, .. } if amount > 0 => format!("n,+{}", r),
        Index::StepBefore { .. } => format!("n,-{}", r),
        Index::StepAfter { amount, .. } if amount > 0 => format!("n,{}+", r),
        Index::StepAfter { .. } => format!("n,{}-", r),
        Index::Offset9 { .. } => format!("n9,{}", r),
        Index::Offset16 { .. } => format!("n16,{}", r),
        Index::Indirect16 { .. } => format!("[n16,{}]", r),
        Index::Plus { accumulator: Accumulator::A, .. } => format!("A,{}", r),
        Index::Plus { accumulator: Accumulator::B, .. } => format!("B,{}", r),
        Index::Plus { accumulator: Accumulator::D, .. } => format!("D,{}", r),
        Index::IndirectD { .. } => format!("[D,{}]", r),
    }
}
