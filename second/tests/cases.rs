//! The case format, the generator and the coverage report.

mod common;

use common::rti;
use second::case::{answer, weighted_sum, Action, Case, Memories};
use second::coverage::Coverage;
use second::cpu::Cpu;
use second::generate::{Generator, Kind};
use second::machine::{lines_at, step, Outcome, Record, Reply};
use second::memory::SIZE;
use std::collections::BTreeSet;

fn answer_line(line: &str) -> String {
    let case = Case::parse(line.as_bytes()).unwrap();
    answer(&case, &mut Memories::default()).to_string()
}

#[test]
fn one_answer_of_each_kind() {
    // LDAA #$7F.
    assert_eq!(
        answer_line("s 10000 0 2 4000 86 4001 7F 0 0 0 0 0 4000 D0 0 0 0"),
        format!("0 1 7F 0 0 0 0 4002 D0 0 1 {:X}", 0x4001u64 * 0x86 + 0x4002 * 0x7F)
    );
    // The same and ADDA #1, then BGND.
    let sum = 0x4001u64 * 0x86 + 0x4002 * 0x7F + 0x4003 * 0x8B + 0x4004;
    assert_eq!(
        answer_line("r 10000 0 4 4000 86 4001 7F 4002 8B 4003 1 0 0 0 0 0 4000 D0 0 0 64 0"),
        format!("4 2 80 0 0 0 0 4004 FA 0 2 {:X}", sum)
    );
    assert_eq!(
        answer_line("z 10000 0 2 FFFE 40 FFFF 0"),
        format!("0 0 0 0 0 0 0 4000 D0 0 0 {:X}", 0xFFFFu64 * 0x40)
    );
    assert_eq!(answer_line("z 0 0 0"), "1 0 0 0 0 0 0 0 D0 0 0 0");
    // A reply is a hexadecimal number too.
    assert_eq!(answer_line("s 10000 0 0 1 2 3 4 5 6 7 0 8 40"), "F 0 1 2 3 4 5 6 7 0 8 0");
}

#[test]
fn the_memory_of_a_seed() {
    // By the rule: v becomes (v * 1103515245 + 12345) mod 2^31, the byte is v / 65536 mod 256.
    let case = Case::parse(b"z 10001 DEADBEEF 1 2 99").unwrap();
    let mut memories = Memories::default();
    let memory = memories.lay_out(&case);
    let mut v: u64 = 0xDEAD_BEEF;
    for (address, &byte) in memory.iter().enumerate() {
        v = (v * 1_103_515_245 + 12_345) % (1 << 31);
        let expected = if address == 2 { 0x99 } else { (v / 65_536 % 256) as u8 };
        assert_eq!(byte, expected);
    }
    assert_eq!(memory.len(), 0x10001);
}

#[test]
fn bytes_are_laid_over_in_order() {
    let case = Case::parse(b"z 3 0 3 1 AA 2 1 1 BB").unwrap();
    assert_eq!(Memories::default().lay_out(&case), [0, 0xBB, 1]);
}

#[test]
fn the_weighted_sum() {
    for length in [0, 1, 255, 256, 257, 65_537] {
        let memory: Vec<u8> = (0..length).map(|n| (n * 7 + 3) as u8).collect();
        let plain: u64 = (1u64..).zip(&memory).map(|(n, &byte)| n * u64::from(byte)).sum();
        assert_eq!(weighted_sum(&memory), plain);
    }
    assert_eq!(weighted_sum(&[0xFF; 65_537]), 255 * 65_537 * 65_538 / 2);
}

#[test]
fn malformed_lines() {
    let lines: [&[u8]; 30] = [
        b"",
        b"s",
        b"q 10000 0 0",
        b"S 10000 0 0",
        b"zz 10000 0 0",
        b"z 10000 0",
        b"z 10000 0 0 ",
        b" z 10000 0 0",
        b"z  10000 0 0",
        b"z 10000 0 0 0",
        b"z 10002 0 0",
        b"z 010000 0 0",
        b"z 10000 00 0",
        b"z 10000 0 101",
        b"z 10000 100000000 0",
        b"z a000 0 0",
        b"z $10 0 0",
        b"z 10 0 1 10 0",
        b"z 10 0 1 F 100",
        b"z 10 0 1 F",
        b"z 10000 0 0\r",
        b"z\t10000 0 0",
        b"z 10000 -1 0",
        b"z 10000 +1 0",
        b"\xFFz 10000 0 0",
        b"s 10000 0 0 0 0 0 0 0 0 0 2 0 0",
        b"s 10000 0 0 100 0 0 0 0 0 0 0 0 0",
        b"s 10000 0 0 0 0 10000 0 0 0 0 0 0 0",
        b"r 10000 0 0 0 0 0 0 0 0 0 0 0 0 42",
        b"r 10000 0 0 0 0 0 0 0 0 0 0 0 0 1 5",
    ];
    for line in lines {
        assert!(Case::parse(line).is_err(), "{:?}", String::from_utf8_lossy(line));
    }
}

#[test]
fn the_largest_numbers_fit() {
    let line = "s 10001 FFFFFFFF 1 10000 FF FF FF FFFF FFFF FFFF FFFF FF 1 FFFFFFFF FF";
    assert_eq!(Case::parse(line.as_bytes()).unwrap().to_string(), line);
    let records = " FFFFFFFF FF".repeat(0x41);
    let line = format!("r 10000 1 0 0 0 0 0 0 0 0 0 0 FFFFFFFF 41{}", records);
    assert_eq!(Case::parse(line.as_bytes()).unwrap().to_string(), line);
}

fn generated(kind: Kind, count: usize, seed: u64) -> Vec<Case> {
    let mut generator = Generator::new(kind, seed);
    (0..count).map(|_| generator.next_case()).collect()
}

#[test]
fn generated_cases_are_well_formed_and_depend_on_the_seed_alone() {
    for kind in [Kind::Step, Kind::Run, Kind::Reset, Kind::Mixed] {
        let cases = generated(kind, 3_000, 7);
        assert_eq!(cases, generated(kind, 3_000, 7));
        assert_ne!(cases, generated(kind, 3_000, 8));
        for case in &cases {
            assert_eq!(&Case::parse(case.to_string().as_bytes()).unwrap(), case);
        }
    }
}

fn covered(kind: Kind, count: usize, seed: u64) -> Coverage {
    let (mut coverage, mut memories) = (Coverage::default(), Memories::default());
    for case in generated(kind, count, seed) {
        coverage.add(&case, &mut memories);
    }
    coverage
}

/// The numbers at the ends of the report's lines that begin with `start`.
fn counts(report: &[String], start: &str) -> Vec<u64> {
    let lines = report.iter().filter(|line| line.starts_with(start));
    lines.map(|line| line.rsplit(' ').next().unwrap().parse().unwrap()).collect()
}

#[test]
fn twenty_thousand_steps_meet_every_cell_and_form_evenly() {
    let coverage = covered(Kind::Step, 20_000, 1);
    assert_eq!(coverage.missing(), Vec::<String>::new());
    let report = coverage.report();
    let cells = counts(&report, "cell ");
    assert_eq!(cells.len(), 512);
    // 37 visits each, of which some end in an entry, an idle cycle or a refusal. The
    // prebyte is met with every cell of page 2, and RTI has cases of its own.
    for (number, &count) in cells.iter().enumerate() {
        let often = matches!(number, 0x0B | 0x18);
        assert!(often || (8..=60).contains(&count), "cell {}: {}", number, count);
    }
    // A single step never gives reply 2, but all the others.
    let replies = counts(&report, "reply ");
    assert!(
        replies.iter().enumerate().all(|(n, &count)| (count == 0) == (n == 2)),
        "{:?}",
        replies
    );
}

#[test]
fn runs_give_every_reply_and_enter_by_every_line() {
    let report = covered(Kind::Run, 6_000, 3).report();
    assert!(counts(&report, "reply ").iter().all(|&count| count > 0));
    assert!(counts(&report, "line ").iter().all(|&count| count > 0));
    assert!(counts(&report, "idle ")[0] > 0);
}

/// The code bytes of a step case, as they lie in its overlay.
fn code_of(case: &Case) -> Vec<u8> {
    let pc = match &case.action {
        Action::Step { cpu, .. } => cpu.pc,
        _ => unreachable!("only steps were asked for"),
    };
    let last = |address: u16| {
        let found = case.overlay.iter().rev().find(|byte| byte.0 == u32::from(address));
        found.map_or(0, |byte| byte.1)
    };
    (0..4).map(|n| last(pc.wrapping_add(n))).collect()
}

#[test]
fn a_large_set_walks_through_all_postbytes() {
    let mut met = [[false; 256]; 5];
    let mut generator = Generator::new(Kind::Step, 2);
    for _ in 0..560_000 {
        let code = code_of(&generator.next_case());
        match code[..] {
            [0xB7, postbyte, ..] => met[0][usize::from(postbyte)] = true,
            [0x04, postbyte, ..] => met[1][usize::from(postbyte)] = true,
            [0xA6, postbyte, ..] => met[2][usize::from(postbyte)] = true,
            [0x18, 0x0A, first, second] => {
                met[3][usize::from(first)] = true;
                met[4][usize::from(second)] = true;
            }
            _ => {}
        }
    }
    // Transfers, loops, an indexed load, and both places of an indexed move.
    for (kind, postbytes) in met.iter().enumerate() {
        assert_eq!(postbytes.iter().filter(|&&met| met).count(), 256, "kind {}", kind);
    }
}

#[test]
fn the_report_says_what_is_missing() {
    let wai_only = |case: &Case| case.to_string().contains(" 3E ");
    let (mut coverage, mut memories) = (Coverage::default(), Memories::default());
    for case in generated(Kind::Step, 4_000, 1).iter().filter(|case| !wai_only(case)) {
        coverage.add(case, &mut memories);
    }
    assert!(coverage.missing().contains(&"cell 1 3E WAI".to_string()));
    assert_eq!(Coverage::default().missing().len(), 512 + coverage.forms().len());
}

#[test]
fn limits_are_generated() {
    let cases = generated(Kind::Run, 20_000, 5);
    let has = |test: &dyn Fn(&Cpu, u32, &[Record]) -> bool| {
        cases.iter().any(|case| match &case.action {
            Action::Run { cpu, budget, schedule } => test(cpu, *budget, schedule),
            _ => false,
        })
    };
    assert!(has(&|_, budget, _| budget == 100_000_000));
    assert!(has(&|_, budget, _| budget == 100_000_001));
    assert!(has(&|cpu, budget, _| u64::from(cpu.clock) + u64::from(budget) == 4_000_000_000));
    assert!(has(&|cpu, budget, _| u64::from(cpu.clock) + u64::from(budget) == 4_000_000_001));
    for count in [0, 1, 63, 64, 65] {
        assert!(has(&|_, _, schedule| schedule.len() == count), "{} records", count);
    }
    for length in [0, 1, 0xFFFF, 0x10001] {
        assert!(cases.iter().any(|case| case.length == length), "length {:X}", length);
    }
}

/// Whether a case sets a bit of a line byte that is no line.
fn has_wrong_lines(case: &Case) -> bool {
    match &case.action {
        Action::Step { lines, .. } => lines >> 6 != 0,
        Action::Run { schedule, .. } => schedule.iter().any(|record| record.lines >> 6 != 0),
        Action::Reset => false,
    }
}

#[test]
fn about_one_case_in_twenty_sets_a_bit_that_is_no_line() {
    let mut memories = Memories::default();
    for (kind, refusals_before) in [(Kind::Step, &[1][..]), (Kind::Run, &[1, 2])] {
        let cases = generated(kind, 20_000, 23);
        let wrong: Vec<&Case> = cases.iter().filter(|case| has_wrong_lines(case)).collect();
        assert!((700..1_300).contains(&wrong.len()), "{}", wrong.len());
        let replies: Vec<u8> =
            wrong.iter().map(|case| answer(case, &mut memories).outcome.reply.number()).collect();
        assert!(replies.iter().all(|reply| refusals_before.contains(reply) || *reply == 15));
        assert!(refusals_before.iter().all(|reply| replies.contains(reply)));
    }
}

/// The bits stand in the first record alone, in the last alone, and in a schedule whose budget
/// or clock is past its limit.
#[test]
fn every_place_of_a_wrong_line_byte_is_generated() {
    let (mut first, mut last, mut past_limits) = (0, 0, 0);
    for case in generated(Kind::Run, 20_000, 29).iter().filter(|case| has_wrong_lines(case)) {
        if let Action::Run { cpu, budget, schedule } = &case.action {
            let wrong = |record: &Record| record.lines >> 6 != 0;
            let alone = schedule.len() > 1 && schedule.iter().filter(|r| wrong(r)).count() == 1;
            first += u32::from(alone && wrong(&schedule[0]));
            last += u32::from(alone && wrong(&schedule[schedule.len() - 1]));
            let end = u64::from(cpu.clock) + u64::from(*budget);
            past_limits += u32::from(*budget > 100_000_000 || end > 4_000_000_000);
        }
    }
    assert!(first > 50 && last > 50 && past_limits > 50, "{first} {last} {past_limits}");
}

/// Of the cases, those that meet an RTI which takes a request or would take it, and all that
/// they meet of RTI.
fn returns(kind: Kind, count: usize, seed: u64) -> (usize, BTreeSet<rti::Met>) {
    let (mut memories, mut all, mut taking) = (Memories::default(), BTreeSet::new(), 0);
    for case in generated(kind, count, seed) {
        let met = rti::met(&case, &mut memories);
        let takes = |one: &rti::Met| matches!(one, rti::Met::Chain(_) | rti::Met::Left(_));
        taking += usize::from(met.iter().any(takes));
        all.extend(met);
    }
    (taking, all)
}

/// As many cases as ./test asks for. What they meet of masks is counted and not asked for by
/// name: there are 1,024 ways, and the stored cases have them all.
#[test]
fn an_rti_that_takes_a_request_is_generated_often_and_in_every_way() {
    let (steps, mut met) = returns(Kind::Step, 50_000, 31);
    let (runs, met_by_runs) = returns(Kind::Run, 10_000, 37);
    assert!(steps > 1_250 && runs > 500, "{} steps, {} runs", steps, runs);
    met.extend(met_by_runs);
    let is_of_masks = |met: &&rti::Met| matches!(met, rti::Met::Masks { .. });
    let ways = met.iter().filter(is_of_masks).count();
    assert!(ways > 400, "{} ways", ways);
    let missing: Vec<rti::Met> = rti::all().difference(&met).copied().collect();
    assert!(missing.iter().all(|met| is_of_masks(&met)), "{:?}", missing);
}

/// Runs that end at the edge of a step: with this budget and no more the last step is
/// taken; with one cycle less it is not.
#[test]
fn edges_of_steps_are_generated() {
    let mut memories = Memories::default();
    let (mut at_the_edge, mut inside, mut after) = (0, 0, 0);
    for case in generated(Kind::Run, 3_000, 11) {
        let budget = match &case.action {
            Action::Run { budget, .. } => *budget,
            _ => continue,
        };
        let outcome = answer(&case, &mut memories).outcome;
        if outcome.reply != Reply::Done || budget == 0 {
            continue;
        }
        match budget - outcome.cycles {
            0 => at_the_edge += 1,
            1 => after += 1,
            _ => inside += 1,
        }
    }
    assert!(at_the_edge > 100 && inside > 100 && after > 100, "{at_the_edge} {inside} {after}");
}

/// A run taken step by step, as the rules for a run say.
fn by_steps(cpu: &mut Cpu, memory: &mut [u8], schedule: &[Record], budget: u32) -> Outcome {
    let mut cycles = 0;
    loop {
        let (mut trial, mut bytes) = (*cpu, memory.to_vec());
        let outcome = step(&mut trial, &mut bytes, lines_at(schedule, cpu.clock));
        if outcome.reply != Reply::Done {
            return Outcome { reply: outcome.reply, cycles };
        }
        if outcome.cycles > budget - cycles {
            return Outcome { reply: Reply::Done, cycles };
        }
        *cpu = trial;
        memory.copy_from_slice(&bytes);
        cycles += outcome.cycles;
    }
}

#[test]
fn a_run_equals_its_steps() {
    let mut memories = Memories::default();
    let mut compared = 0;
    for case in generated(Kind::Run, 1_500, 11) {
        let whole = answer(&case, &mut memories);
        let (cpu, budget, schedule) = match &case.action {
            Action::Run { cpu, budget, schedule } => (cpu, *budget, schedule),
            _ => unreachable!("only runs were asked for"),
        };
        let refused = matches!(whole.outcome.reply.number(), 1..=3 | 15);
        // Close to the last clock value a single step is refused, a run is not.
        if refused || cpu.clock > 3_990_000_000 || whole.outcome.cycles > 2_000 {
            continue;
        }
        let mut cpu = *cpu;
        let memory = memories.lay_out(&case);
        assert_eq!(memory.len(), SIZE);
        let outcome = by_steps(&mut cpu, memory, schedule, budget);
        assert_eq!((outcome, cpu), (whole.outcome, whole.cpu), "{}", case);
        assert_eq!(weighted_sum(memory), whole.sum, "{}", case);
        compared += 1;
    }
    assert!(compared > 800, "{}", compared);
}

#[test]
fn x_once_clear_is_set_only_by_an_xirq_entry() {
    use second::boundary::{Kind as StepKind, Next};
    let mut memories = Memories::default();
    let mut returns_to_xirq = 0;
    for case in generated(Kind::Mixed, 20_000, 13) {
        second::case::answer_watched(&case, &mut memories, &mut |cpu, _, next| {
            if let Next::Do(effect) = next {
                let set = cpu.ccr & 0x40 == 0 && effect.cpu.ccr & 0x40 != 0;
                let by_xirq = matches!(effect.kind, StepKind::Entry(0) | StepKind::WaitEnd(0));
                assert_eq!(set, by_xirq);
                // An RTI that takes XIRQ found X set, or XIRQ would have been entered before.
                if effect.kind == StepKind::ReturnToRequest(0) {
                    assert_eq!(cpu.ccr & 0x40, 0x40);
                    returns_to_xirq += 1;
                }
                assert!((1..=13).contains(&effect.cost));
                assert_eq!(effect.cpu.clock, cpu.clock + effect.cost);
            }
        });
    }
    assert!(returns_to_xirq > 100, "{}", returns_to_xirq);
}

/// The condition codes that an instruction may change, by the tables of the glossary.
fn codes_touched(name: &str) -> u8 {
    const NONE: u8 = 0x00;
    match name {
        "ABA" | "ADCA" | "ADCB" | "ADDA" | "ADDB" => 0x2F,
        "ADDD" | "ASL" | "ASLA" | "ASLB" | "ASLD" | "ASR" | "ASRA" | "ASRB" | "CBA" => 0x0F,
        "CMPA" | "CMPB" | "CPD" | "CPS" | "CPX" | "CPY" | "EDIV" | "EDIVS" | "EMACS" => 0x0F,
        "EMAXD" | "EMAXM" | "EMIND" | "EMINM" | "IDIVS" | "MAXA" | "MAXM" | "MINA" => 0x0F,
        "MINM" | "NEG" | "NEGA" | "NEGB" | "ROL" | "ROLA" | "ROLB" | "ROR" | "RORA" => 0x0F,
        "RORB" | "SBA" | "SBCA" | "SBCB" | "SUBA" | "SUBB" | "SUBD" => 0x0F,
        "CLR" | "CLRA" | "CLRB" | "COM" | "COMA" | "COMB" | "TST" | "TSTA" | "TSTB" => 0x0F,
        "LSR" | "LSRA" | "LSRB" | "LSRD" => 0x0F,
        "ANDA" | "ANDB" | "BITA" | "BITB" | "BCLR" | "BSET" | "EORA" | "EORB" => 0x0E,
        "ORAA" | "ORAB" | "LDAA" | "LDAB" | "LDD" | "LDS" | "LDX" | "LDY" => 0x0E,
        "STAA" | "STAB" | "STD" | "STS" | "STX" | "STY" | "TAB" | "TBA" => 0x0E,
        "DEC" | "DECA" | "DECB" | "INC" | "INCA" | "INCB" => 0x0E,
        "DEX" | "DEY" | "INX" | "INY" => 0x04,
        "MUL" => 0x01,
        "DAA" | "EMUL" | "EMULS" => 0x0D,
        "ETBL" | "TBL" => 0x0C,
        "FDIV" | "IDIV" => 0x07,
        "SWI" | "TRAP" => 0x10,
        "ANDCC" | "ORCC" | "PULC" | "RTI" | "TFR/EXG" => 0xFF,
        _ => NONE,
    }
}

#[test]
fn only_the_codes_of_the_glossary_change() {
    use second::boundary::{Kind as StepKind, Next};
    use second::opcodes::cell_at;
    use std::collections::BTreeMap;
    let mut changed: BTreeMap<String, u8> = BTreeMap::new();
    let mut memories = Memories::default();
    for case in generated(Kind::Step, 60_000, 17) {
        second::case::answer_watched(&case, &mut memories, &mut |cpu, _, next| {
            if let Next::Do(effect) = next {
                if let StepKind::Instruction { page, opcode } = effect.kind {
                    let name = cell_at(page, opcode).operation.name();
                    *changed.entry(name).or_default() |= cpu.ccr ^ effect.cpu.ccr;
                }
            }
        });
    }
    // None that may not change, and every one that may was seen to change. ORCC cannot
    // change X, since it can neither clear nor set it.
    for (name, seen) in changed {
        let expected = if name == "ORCC" { 0xBF } else { codes_touched(&name) };
        assert_eq!(seen, expected, "{}", name);
    }
}

/// How many bytes an instruction writes.
fn bytes_written(name: &str) -> usize {
    match name {
        "STAA" | "STAB" | "PSHA" | "PSHB" | "PSHC" | "MOVB" | "MAXM" | "MINM" => 1,
        "BSET" | "BCLR" | "CLR" | "NEG" | "COM" | "INC" | "DEC" | "LSR" | "ROL" | "ROR" => 1,
        "ASR" | "ASL" => 1,
        "STD" | "STS" | "STX" | "STY" | "PSHD" | "PSHX" | "PSHY" | "MOVW" => 2,
        "EMAXM" | "EMINM" | "BSR" | "JSR" => 2,
        "EMACS" => 4,
        "SWI" | "TRAP" | "WAI" => 9,
        _ => 0,
    }
}

#[test]
fn each_step_writes_its_own_bytes_and_no_others() {
    use second::boundary::{Kind as StepKind, Next};
    use second::opcodes::cell_at;
    let mut memories = Memories::default();
    for case in generated(Kind::Mixed, 30_000, 19) {
        second::case::answer_watched(&case, &mut memories, &mut |_, _, next| {
            if let Next::Do(effect) = next {
                let expected = match effect.kind {
                    StepKind::Entry(_) => 9,
                    StepKind::WaitEnd(_) | StepKind::Idle | StepKind::ReturnToRequest(_) => 0,
                    StepKind::Instruction { page, opcode } => {
                        bytes_written(&cell_at(page, opcode).operation.name())
                    }
                };
                assert_eq!(effect.writes.list().len(), expected, "{}", case);
            }
        });
    }
}
