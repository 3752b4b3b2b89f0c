//! The stored cases: their answers, that the refused ones among them took no situation away, and
//! that they have every way in which an RTI can meet requests.

mod common;

use common::rti;
use second::boundary::{Kind, Next};
use second::case::{answer, answer_watched, Action, Case, Memories};
use second::cpu::{Cpu, I, X};
use second::machine::{lines_at, Reply};
use second::memory::read8;
use second::opcodes::{find, Form, Found};
use second::postbyte::Index;
use std::collections::{BTreeSet, HashSet};

const CASES: &str = concat!(env!("CARGO_MANIFEST_DIR"), "/../crates/cases/stdin");
const ANSWERS: &str = concat!(env!("CARGO_MANIFEST_DIR"), "/../crates/cases/stdout");

fn lines_of(file: &str) -> Vec<String> {
    let text = std::fs::read_to_string(file).expect("the file can be read");
    text.lines().map(str::to_string).collect()
}

fn cases() -> Vec<Case> {
    lines_of(CASES).iter().filter_map(|line| Case::parse(line.as_bytes()).ok()).collect()
}

#[test]
fn the_stored_answers_are_those_of_this_emulator() {
    let (cases, answers) = (lines_of(CASES), lines_of(ANSWERS));
    assert_eq!(cases.len(), answers.len());
    let mut memories = Memories::default();
    for (number, (case, stored)) in (1..).zip(cases.iter().zip(&answers)) {
        let found = Case::parse(case.as_bytes())
            .map_or_else(|_| "bad".to_string(), |case| answer(&case, &mut memories).to_string());
        assert_eq!(&found, stored, "line {}", number);
    }
}

/// What a step was, as far as two steps of one kind are told from each other: for an
/// instruction its cell, with the postbyte of a transfer or a loop and else the address form.
#[derive(Clone, Copy, Debug, PartialEq, Eq, Hash)]
enum What {
    Entry(u8),
    WaitEnd(u8),
    Idle,
    ReturnToRequest(u8),
    Instruction(u8, u8, u8),
    Stops(u8, u8),
    Reserved(u8, u8, u8),
}

/// What is to be met. The letter is that of the case.
#[derive(Clone, Copy, Debug, PartialEq, Eq, Hash)]
enum Situation {
    /// An entry, the end of a wait, an idle cycle or an RTI that takes a request, with the line
    /// byte and the masks.
    Requests(char, What, u8, u8),
    /// An instruction or its refusal, with a line up or with none.
    Program(char, What, bool),
    /// Two steps one after the other, one of them an entry, the end of a wait or such an RTI.
    Pair(What, What),
    /// The line of an entry whose frame covers its vector, high byte or low, or the next
    /// instruction, or goes over the end of memory.
    Frame(char, u8, [bool; 4]),
}

fn detail(memory: &[u8], found: &Found) -> u8 {
    let first = read8(memory, found.operands);
    match found.cell.form {
        Form::Transfer | Form::Loop => first,
        form if form.indexed_postbytes() > 0 => Index::decode(first).form() as u8,
        _ => 0,
    }
}

fn what(cpu: &Cpu, memory: &[u8], next: &Next) -> What {
    let found = find(memory, cpu.pc);
    let (page, opcode, detail) = (found.page, found.opcode, detail(memory, &found));
    match next {
        Next::Stops => What::Stops(page, opcode),
        Next::Reserved => What::Reserved(page, opcode, detail),
        Next::Do(effect) => match effect.kind {
            Kind::Entry(line) => What::Entry(line),
            Kind::WaitEnd(line) => What::WaitEnd(line),
            Kind::Idle => What::Idle,
            Kind::ReturnToRequest(line) => What::ReturnToRequest(line),
            Kind::Instruction { .. } => What::Instruction(page, opcode, detail),
        },
    }
}

fn frame(cpu: &Cpu, line: u8) -> [bool; 4] {
    let vector = Cpu::request_vector(line);
    let covers = |address: u16| cpu.sp.wrapping_sub(1).wrapping_sub(address) < 9;
    [covers(vector), covers(vector + 1), covers(cpu.pc), (1..9).contains(&cpu.sp)]
}

fn is_request(what: What) -> bool {
    matches!(what, What::Entry(_) | What::WaitEnd(_) | What::ReturnToRequest(_))
}

/// Everything that a case meets on its way.
fn met(case: &Case, memories: &mut Memories) -> HashSet<Situation> {
    let mut met = HashSet::new();
    let letter = if matches!(case.action, Action::Step { .. }) { 's' } else { 'r' };
    let mut before = None;
    answer_watched(case, memories, &mut |cpu, memory, next| {
        let lines = match &case.action {
            Action::Step { lines, .. } => *lines,
            Action::Run { schedule, .. } => lines_at(schedule, cpu.clock),
            Action::Reset => 0,
        };
        let what = what(cpu, memory, next);
        met.insert(match what {
            What::Entry(_) | What::WaitEnd(_) | What::Idle | What::ReturnToRequest(_) => {
                Situation::Requests(letter, what, lines, cpu.ccr & (X | I))
            }
            _ => Situation::Program(letter, what, lines != 0),
        });
        if let What::Entry(line) = what {
            met.insert(Situation::Frame(letter, line, frame(cpu, line)));
        }
        if let Some(before) = before.filter(|&before| is_request(before) || is_request(what)) {
            met.insert(Situation::Pair(before, what));
        }
        before = Some(what);
    });
    met
}

/// The case with bits 0 to 5 alone in its line bytes.
fn with_lines_alone(case: &Case) -> Case {
    let mut twin = case.clone();
    match &mut twin.action {
        Action::Step { lines, .. } => *lines &= 0x3F,
        Action::Run { schedule, .. } => schedule.iter_mut().for_each(|r| r.lines &= 0x3F),
        Action::Reset => {}
    }
    twin
}

#[test]
fn what_a_refused_case_would_meet_without_its_wrong_bits_another_case_meets() {
    let mut memories = Memories::default();
    let mut stored = HashSet::new();
    let mut refused = Vec::new();
    for case in cases() {
        if answer(&case, &mut memories).outcome.reply == Reply::WrongLine {
            refused.push(case);
        } else {
            stored.extend(met(&case, &mut memories));
        }
    }
    assert!(refused.len() > 6_000, "{}", refused.len());
    for case in refused.iter().map(with_lines_alone) {
        let new: Vec<Situation> = met(&case, &mut memories).difference(&stored).copied().collect();
        assert!(new.is_empty(), "{:?}: {}", new, case);
    }
}

#[test]
fn every_way_in_which_rti_can_meet_requests_is_stored() {
    let mut memories = Memories::default();
    let met: BTreeSet<rti::Met> =
        cases().iter().flat_map(|case| rti::met(case, &mut memories)).collect();
    let missing: Vec<rti::Met> = rti::all().difference(&met).copied().collect();
    assert!(missing.is_empty(), "{:?}", missing);
}
