//! Random cases, spread evenly over the cells of the map.
//!
//! Cell after cell is visited in a shuffled order, and each visit builds a case around
//! one instruction of that cell: its bytes, registers that lie at the edges, a stack
//! that may cover the code or the vectors, and, for a run, a short program after it. Some
//! cases are built around an RTI instead.

mod returns;

use crate::case::{answer, Action, Case, Memories, MOST_OVERLAY};
use crate::cpu::Cpu;
use crate::glossary::Operation;
use crate::machine::{Record, Reply, MOST_BUDGET, MOST_STEP_CLOCK};
use crate::opcodes::{cell_at, Cell, Form, PREBYTE};
use crate::postbyte::Index;
use crate::random::Random;

#[derive(Clone, Copy, Debug, PartialEq, Eq)]
pub enum Kind {
    Step,
    Run,
    Reset,
    Mixed,
}

impl Kind {
    pub fn from_word(word: &str) -> Option<Kind> {
        match word {
            "s" => Some(Kind::Step),
            "r" => Some(Kind::Run),
            "z" => Some(Kind::Reset),
            "mixed" => Some(Kind::Mixed),
            _ => None,
        }
    }
}

/// A run with a larger budget than this must stop of itself, or it is cut down to it.
const LONG_BUDGET: u32 = 20_000;
/// How many different images most cases share.
const SHARED_SEEDS: usize = 12;
const CELLS: u32 = 512;
/// The percentage of the line bytes of steps, and of schedules, that set a bit which is no
/// line: enough to meet that refusal, and few enough to leave the others their cases.
const WRONG_LINES: u32 = 6;
/// The percentage of the steps and of the runs that are built around an RTI.
const RETURNS: u32 = 5;
/// The lowest vector of a request; the others lie above it, and that of the traps last.
const LAST_VECTOR: u16 = Cpu::XIRQ_VECTOR - 2 * (Cpu::LINES as u16 - 1);

pub struct Generator {
    kind: Kind,
    random: Random,
    order: Vec<u32>,
    visited: usize,
    /// How often each cell has been visited.
    visits: Vec<u32>,
    /// A shuffled order of all postbytes, walked through visit by visit.
    postbytes: Vec<u32>,
    seeds: Vec<u32>,
    memories: Memories,
}

/// A case while it is being built.
struct Draft {
    cpu: Cpu,
    overlay: Vec<(u32, u8)>,
}

impl Draft {
    fn put(&mut self, address: u16, byte: u8) {
        if self.overlay.len() < MOST_OVERLAY as usize {
            self.overlay.push((u32::from(address), byte));
        }
    }

    /// Lays bytes down and gives the address after them.
    fn put_all(&mut self, address: u16, bytes: &[u8]) -> u16 {
        let mut place = address;
        for &byte in bytes {
            self.put(place, byte);
            place = place.wrapping_add(1);
        }
        place
    }
}

impl Generator {
    pub fn new(kind: Kind, seed: u64) -> Generator {
        let mut random = Random::new(seed);
        let order = random.shuffled(CELLS);
        let postbytes = random.shuffled(256);
        let seeds = (0..SHARED_SEEDS).map(|_| random.long() & 0x7FFF_FFFF | 1).collect();
        Generator {
            kind,
            random,
            order,
            visited: 0,
            visits: vec![0; CELLS as usize],
            postbytes,
            seeds,
            memories: Memories::default(),
        }
    }

    pub fn next_case(&mut self) -> Case {
        let kind = match self.kind {
            Kind::Mixed => match self.random.below(10) {
                0..=5 => Kind::Step,
                6..=8 => Kind::Run,
                _ => Kind::Reset,
            },
            kind => kind,
        };
        match kind {
            Kind::Run => self.run_case(),
            Kind::Reset => self.reset_case(),
            _ => self.step_case(),
        }
    }

    /// The next cell as page, opcode and the number of visits before this one.
    fn next_cell(&mut self) -> (u8, u8, u32) {
        if self.visited == self.order.len() {
            self.order = self.random.shuffled(CELLS);
            self.visited = 0;
        }
        let number = self.order[self.visited] as usize;
        self.visited += 1;
        let visit = self.visits[number];
        self.visits[number] += 1;
        (if number < 256 { 1 } else { 2 }, number as u8, visit)
    }

    fn step_case(&mut self) -> Case {
        if self.random.chance(RETURNS) {
            return self.return_step();
        }
        let (page, opcode, visit) = self.next_cell();
        let mut draft = self.draft(page, opcode);
        if self.random.chance(20) {
            self.add_vectors(&mut draft);
        }
        // The code comes last, so that nothing else lies over it.
        let code = self.instruction(page, opcode, visit, &draft.cpu);
        draft.put_all(draft.cpu.pc, &code);
        // The first visit is plain, so that every cell is surely met.
        let mut lines = 0;
        if visit == 0 {
            draft.cpu.waiting = false;
            draft.cpu.clock = self.random.below(1_000_000);
        } else {
            lines = self.lines();
            if self.random.chance(WRONG_LINES) {
                self.spoil_lines(&mut lines);
            }
            draft.cpu.waiting = self.random.chance(6);
            draft.cpu.clock = self.step_clock();
        }
        let length = if visit == 0 { 0x10000 } else { self.length() };
        let seed = self.seed();
        finish(length, seed, draft.overlay, Action::Step { cpu: draft.cpu, lines })
    }

    fn run_case(&mut self) -> Case {
        if self.random.chance(RETURNS) {
            return self.return_run();
        }
        let (page, opcode, visit) = self.next_cell();
        let mut draft = self.draft(page, opcode);
        if self.random.chance(80) {
            self.add_vectors(&mut draft);
        }
        self.add_program(&mut draft, page, opcode, visit);
        if visit == 0 {
            draft.cpu.waiting = false;
            draft.cpu.clock = self.random.below(1_000_000);
            let budget = self.random.between(20, 300);
            let action = Action::Run { cpu: draft.cpu, budget, schedule: Vec::new() };
            let seed = self.seed();
            return finish(0x10000, seed, draft.overlay, action);
        }
        draft.cpu.waiting = self.random.chance(8);
        let (clock, budget) = self.run_times();
        draft.cpu.clock = clock;
        let schedule = self.schedule(clock);
        let (length, seed) = (self.length(), self.seed());
        let action = Action::Run { cpu: draft.cpu, budget, schedule };
        let case = self.shorten(finish(length, seed, draft.overlay, action));
        self.at_an_edge(case)
    }

    fn reset_case(&mut self) -> Case {
        let length = if self.random.chance(30) { self.wrong_length() } else { 0x10000 };
        let mut overlay = Vec::new();
        if self.random.chance(60) {
            overlay.push((0xFFFE, self.random.byte()));
            overlay.push((0xFFFF, self.random.byte()));
        }
        for _ in 0..self.random.below(4) {
            overlay.push((u32::from(self.random.word()), self.random.byte()));
        }
        let seed = self.seed();
        finish(length, seed, overlay, Action::Reset)
    }

    /// A long run that does not stop of itself gets a smaller budget. A run that stops
    /// within a small budget stops at the same place within a large one.
    fn shorten(&mut self, mut case: Case) -> Case {
        let long = matches!(&case.action, Action::Run { budget, .. } if *budget > LONG_BUDGET);
        if !long || case.length != 0x10000 {
            return case;
        }
        let mut trial = case.clone();
        set_budget(&mut trial, LONG_BUDGET);
        if answer(&trial, &mut self.memories).outcome.reply == Reply::Done {
            let refused_anyway = answer_needs_no_run(&case);
            if !refused_anyway {
                let budget = self.random.between(1, LONG_BUDGET);
                set_budget(&mut case, budget);
            }
        }
        case
    }

    /// One run in three that spends its budget gets one that ends just where its last step
    /// does, a cycle sooner, inside that step, or a cycle later.
    fn at_an_edge(&mut self, mut case: Case) -> Case {
        if !self.random.chance(33) || answer_needs_no_run(&case) {
            return case;
        }
        let outcome = answer(&case, &mut self.memories).outcome;
        if outcome.reply == Reply::Done && outcome.cycles > 0 {
            let budget = outcome.cycles - 1 + self.random.below(3);
            set_budget(&mut case, budget);
        }
        case
    }

    fn draft(&mut self, page: u8, opcode: u8) -> Draft {
        let pc = self.program_counter();
        let sp = self.stack_pointer(pc);
        let mut cpu = Cpu {
            a: self.edge8(),
            b: self.edge8(),
            x: self.edge16(&[pc, sp]),
            y: self.edge16(&[pc, sp]),
            sp,
            pc,
            ccr: self.random.byte(),
            waiting: false,
            clock: 0,
        };
        self.prepare_division(&mut cpu, cell_at(page, opcode).operation);
        Draft { cpu, overlay: Vec::new() }
    }

    /// PC anywhere, at both ends of memory, and among the vectors.
    fn program_counter(&mut self) -> u16 {
        match self.random.below(10) {
            0..=5 => self.random.word(),
            6 => self.random.below(8) as u16,
            7 => self.random.between(0xFFE0, 0xFFF7) as u16,
            _ => self.random.between(0xFFF8, 0xFFFF) as u16,
        }
    }

    /// SP anywhere, over the code, over the vectors, and at both ends of memory.
    fn stack_pointer(&mut self, pc: u16) -> u16 {
        match self.random.below(10) {
            0..=3 => self.random.word(),
            4 | 5 => self.near(pc),
            6 | 7 => self.random.between(u32::from(LAST_VECTOR), 0xFFFF) as u16,
            8 => self.random.below(12) as u16,
            _ => self.random.pick(&[0, 1, 0x7FFF, 0x8000, 0xFFFE, 0xFFFF]),
        }
    }

    fn near(&mut self, address: u16) -> u16 {
        address.wrapping_add(self.random.below(25) as u16).wrapping_sub(12)
    }

    fn edge8(&mut self) -> u8 {
        if self.random.chance(55) {
            return self.random.byte();
        }
        self.random.pick(&[0, 1, 2, 0x0F, 0x10, 0x7E, 0x7F, 0x80, 0x81, 0x99, 0x9A, 0xFE, 0xFF])
    }

    /// A word: any, an edge, or an address near one of the given ones.
    fn edge16(&mut self, anchors: &[u16]) -> u16 {
        match self.random.below(10) {
            0..=4 => self.random.word(),
            5 => self.random.pick(&[0, 1, 2, 0xFF, 0x100, 0x7FFF, 0x8000, 0x8001, 0xFFFE, 0xFFFF]),
            6 => self.random.below(20) as u16,
            7 => self.random.between(0xFFE0, 0xFFFF) as u16,
            _ => {
                let anchor = self.random.pick(anchors);
                self.near(anchor)
            }
        }
    }

    /// Divisors and dividends at the limits, which random words hardly ever hit.
    fn prepare_division(&mut self, cpu: &mut Cpu, operation: Operation) {
        use Operation::{EDIV, EDIVS, FDIV, IDIV, IDIVS};
        let divides = matches!(operation, EDIV | EDIVS | IDIV | IDIVS | FDIV);
        if !divides || self.random.chance(30) {
            return;
        }
        cpu.x = self.random.pick(&[0, 1, 2, 3, 0x7FFF, 0x8000, 0xFFFF, cpu.x, cpu.x, cpu.x]);
        let any = u32::from(cpu.d());
        let quotient: u32 = self.random.pick(&[0, 1, 0x7FFF, 0x8000, 0xFFFF, 0x10000, any]);
        let rest = u32::from(cpu.y).checked_rem(u32::from(cpu.x)).unwrap_or(0);
        let negative = self.random.chance(50);
        let dividend = if operation == EDIVS {
            let product = (quotient as i32).wrapping_mul(i32::from(cpu.x as i16));
            let signed = if negative { product.wrapping_neg() } else { product };
            (signed as u32).wrapping_add(self.random.below(3)).wrapping_sub(1)
        } else {
            quotient.wrapping_mul(u32::from(cpu.x)).wrapping_add(rest)
        };
        if matches!(operation, EDIV | EDIVS) {
            cpu.y = (dividend >> 16) as u16;
            cpu.set_d(dividend as u16);
        } else if self.random.chance(60) {
            cpu.set_d(self.random.pick(&[
                0,
                1,
                0x7FFF,
                0x8000,
                0xFFFF,
                cpu.x,
                cpu.x.wrapping_sub(1),
            ]));
        }
    }

    /// The bytes of one instruction of a cell.
    fn instruction(&mut self, page: u8, opcode: u8, visit: u32, cpu: &Cpu) -> Vec<u8> {
        if page == 1 && opcode == PREBYTE {
            let inner = self.random.byte();
            return self.instruction(2, inner, visit, cpu);
        }
        let cell = cell_at(page, opcode);
        let mut code = if page == 2 { vec![PREBYTE, opcode] } else { vec![opcode] };
        let opening = code.len();
        let mut extension = 0;
        for nth in 0..cell.form.indexed_postbytes() {
            let postbyte = self.index_postbyte(visit, u32::from(opcode) + 97 * u32::from(nth));
            extension += usize::from(Index::decode(postbyte).extension_bytes());
            code.push(postbyte);
        }
        if matches!(cell.form, Form::Transfer | Form::Loop) {
            code.push(self.postbytes[(visit % 256) as usize] as u8);
        }
        let length = opening + usize::from(cell.form.operand_bytes()) + extension;
        while code.len() < length {
            self.add_operand(&mut code, length, cell, cpu);
        }
        code
    }

    /// On every other visit the next postbyte of all 256, else a form and a base evenly.
    /// Each cell starts its walk through the 256 at another place.
    fn index_postbyte(&mut self, visit: u32, start: u32) -> u8 {
        if visit % 2 == 1 {
            return self.postbytes[((visit / 2 + 37 * start) % 256) as usize] as u8;
        }
        let base = self.random.below(4) as u8;
        let stepping = self.random.below(3) as u8;
        match self.random.below(10) {
            0 | 1 => base << 6 | self.random.byte() & 0x1F,
            2 => stepping << 6 | 0x20 | self.random.byte() & 0x0F,
            3 => stepping << 6 | 0x30 | self.random.byte() & 0x0F,
            4 => 0xE4 | base << 3 | self.random.pick(&[0, 1, 2]),
            5 | 6 => 0xE0 | base << 3 | self.random.byte() & 1,
            7 => 0xE2 | base << 3,
            8 => 0xE3 | base << 3,
            _ => 0xE7 | base << 3,
        }
    }

    /// A word if two bytes or more are wanted, mostly an address worth going to.
    fn add_operand(&mut self, code: &mut Vec<u8>, length: usize, cell: &Cell, cpu: &Cpu) {
        let branch = matches!(cell.form, Form::Relative8 | Form::Relative16 | Form::Loop);
        if length - code.len() >= 2 && !branch {
            let word = self.edge16(&[cpu.pc, cpu.sp, cpu.x]);
            code.extend_from_slice(&word.to_be_bytes());
        } else if branch && self.random.chance(30) {
            code.push(self.random.pick(&[0x00, 0x01, 0x02, 0x7F, 0x80, 0xFC, 0xFD, 0xFE, 0xFF]));
        } else {
            code.push(self.edge8());
        }
    }

    /// The instruction of the cell, some others after it, and an end.
    fn add_program(&mut self, draft: &mut Draft, page: u8, opcode: u8, visit: u32) {
        let code = self.instruction(page, opcode, visit, &draft.cpu);
        let mut place = draft.put_all(draft.cpu.pc, &code);
        for _ in 0..self.random.below(10) {
            let (page, opcode) = (if self.random.chance(70) { 1 } else { 2 }, self.random.byte());
            let opcode = if page == 2 { opcode & 0x3F } else { opcode };
            let visit = self.random.below(512);
            let code = self.instruction(page, opcode, visit, &draft.cpu);
            place = draft.put_all(place, &code);
        }
        let ends: [&[u8]; 9] = [
            &[0x00],
            &[0x0A],
            &[0x18, 0x3E],
            &[0xB7, 0x35],
            &[0x04, 0xC0, 0x00],
            &[0x3E],
            &[0x10, 0x00, 0x3E],
            &[0x20, 0xFE],
            &[0x0B],
        ];
        let end = self.random.pick(&ends);
        draft.put_all(place, end);
    }

    /// Vectors that lead to short handlers, mostly ended by RTI.
    fn add_vectors(&mut self, draft: &mut Draft) {
        for vector in (LAST_VECTOR..=Cpu::TRAP_VECTOR).step_by(2) {
            if self.random.chance(15) {
                continue;
            }
            let handler = self.edge16(&[draft.cpu.pc, draft.cpu.sp]);
            draft.put_all(vector, &handler.to_be_bytes());
            if self.random.chance(60) {
                let body: &[u8] = self.random.pick(&[
                    &[0x0B][..],
                    &[0xA7, 0x0B],
                    &[0x42, 0x0B],
                    &[0x10, 0xAF, 0x0B],
                    &[0x00],
                    &[0x3E],
                ]);
                draft.put_all(handler, body);
            }
        }
    }

    fn lines(&mut self) -> u8 {
        match self.random.below(10) {
            0..=4 => 0,
            5 | 6 => 1 << self.random.below(u32::from(Cpu::LINES)),
            7 => 1,
            _ => self.random.below(1 << Cpu::LINES) as u8,
        }
    }

    /// Sets bits that are no lines.
    fn spoil_lines(&mut self, lines: &mut u8) {
        *lines |= self.random.pick(&[1, 2, 3]) << Cpu::LINES;
    }

    fn step_clock(&mut self) -> u32 {
        match self.random.below(20) {
            0..=14 => self.random.below(MOST_STEP_CLOCK),
            15 => 0,
            16 | 17 => MOST_STEP_CLOCK - self.random.below(3),
            18 => MOST_STEP_CLOCK + self.random.between(1, 120),
            _ => self.random.pick(&[0, MOST_STEP_CLOCK, 4_000_000_000, 4_000_000_001, u32::MAX]),
        }
    }

    /// Clock and budget of a run, with their limits and one past them.
    fn run_times(&mut self) -> (u32, u32) {
        let clock = self.random.below(3_800_000_000);
        match self.random.below(24) {
            0 => (clock, 0),
            1..=4 => (clock, self.random.between(1, 24)),
            5..=15 => (clock, self.random.between(25, 400)),
            16 | 17 => (clock, self.random.between(400, 5_000)),
            18 => (clock, MOST_BUDGET),
            19 => (clock, MOST_BUDGET + self.random.between(1, 3)),
            20 | 21 => {
                let budget = self.random.between(0, 300);
                let past = self.random.below(2);
                (4_000_000_000 - budget + past, budget)
            }
            22 => (4_000_000_000 - MOST_BUDGET + self.random.below(2), MOST_BUDGET),
            _ => {
                (self.random.pick(&[0, clock, u32::MAX]), self.random.pick(&[0, 1, u32::MAX, 200]))
            }
        }
    }

    /// 0 to 65 records, mostly rising from near the clock.
    fn schedule(&mut self, clock: u32) -> Vec<Record> {
        let count = match self.random.below(16) {
            0..=3 => 0,
            4..=9 => self.random.between(1, 4),
            10..=12 => self.random.between(5, 20),
            13 => self.random.between(21, 63),
            14 => 64,
            _ => self.random.pick(&[64, 65]),
        };
        let mut cycle = clock.saturating_sub(self.random.below(40));
        let mut schedule = Vec::new();
        for _ in 0..count {
            schedule.push(Record { cycle, lines: self.lines() });
            cycle = cycle.saturating_add(self.random.between(1, 30));
        }
        if count >= 2 && self.random.chance(10) {
            self.spoil(&mut schedule);
        }
        if count >= 1 && self.random.chance(WRONG_LINES) {
            self.spoil_lines_of(&mut schedule);
        }
        schedule
    }

    /// Sets bits that are no lines in the first record, in the last, in any, or in all.
    fn spoil_lines_of(&mut self, schedule: &mut [Record]) {
        let count = schedule.len();
        let any = self.random.below(count as u32) as usize;
        let spoiled = match self.random.below(4) {
            0 => 0..1,
            1 => count - 1..count,
            2 => any..any + 1,
            _ => 0..count,
        };
        for record in &mut schedule[spoiled] {
            self.spoil_lines(&mut record.lines);
        }
    }

    /// Makes one record equal to the one before it, or earlier.
    fn spoil(&mut self, schedule: &mut [Record]) {
        let place = self.random.between(1, schedule.len() as u32 - 1) as usize;
        let before = schedule[place - 1].cycle;
        schedule[place].cycle = before.saturating_sub(self.random.below(3));
    }

    fn length(&mut self) -> u32 {
        if self.random.chance(97) {
            0x10000
        } else {
            self.wrong_length()
        }
    }

    fn wrong_length(&mut self) -> u32 {
        match self.random.below(3) {
            0 => self.random.pick(&[0, 1, 0xFFFE, 0xFFFF, 0x10001]),
            1 => self.random.pick(&[0xFFFF, 0x10001]),
            _ => self.random.below(0x10000),
        }
    }

    fn seed(&mut self) -> u32 {
        match self.random.below(200) {
            0..=29 => 0,
            30 => self.random.long(),
            _ => self.seeds[self.random.below(SHARED_SEEDS as u32) as usize],
        }
    }
}

/// Bytes outside a memory of the wrong length are left out.
fn finish(length: u32, seed: u32, mut overlay: Vec<(u32, u8)>, action: Action) -> Case {
    overlay.retain(|&(address, _)| address < length);
    Case { length, seed, overlay, action }
}

fn set_budget(case: &mut Case, new_budget: u32) {
    if let Action::Run { budget, .. } = &mut case.action {
        *budget = new_budget;
    }
}

/// Whether a run is refused for its times, so that its length does not matter.
fn answer_needs_no_run(case: &Case) -> bool {
    match &case.action {
        Action::Run { cpu, budget, .. } => {
            *budget > MOST_BUDGET || u64::from(cpu.clock) + u64::from(*budget) > 4_000_000_000
        }
        _ => true,
    }
}
