//! The steps of a case as text, a line each.

use crate::boundary::{next, Effect, Kind, Next};
use crate::case::{Action, Case, Memories};
use crate::cpu::Cpu;
use crate::machine::{lines_at, run_watched, step_watched, Reply};
use crate::opcodes::cell_at;

/// Every step that the case does, and last the one that a run has too few cycles left for.
pub fn lines(case: &Case, memories: &mut Memories) -> Vec<String> {
    let memory = memories.lay_out(case);
    let mut done = Vec::new();
    let mut watcher = |cpu: &Cpu, _: &[u8], coming: &Next| done.push(line(cpu, coming));
    match &case.action {
        Action::Reset => {}
        Action::Step { cpu, lines } => {
            step_watched(&mut { *cpu }, memory, *lines, &mut watcher);
        }
        Action::Run { cpu, budget, schedule } => {
            let mut cpu = *cpu;
            let outcome = run_watched(&mut cpu, memory, schedule, *budget, &mut watcher);
            if outcome.reply == Reply::Done {
                let not_begun = next(&cpu, memory, lines_at(schedule, cpu.clock));
                done.push(format!("{} {:X}", line(&cpu, &not_begun), budget - outcome.cycles));
            }
        }
    }
    done
}

fn line(cpu: &Cpu, coming: &Next) -> String {
    let (cycles, what) = match coming {
        Next::Stops => (0, "stop".to_string()),
        Next::Reserved => (0, "reserved".to_string()),
        Next::Do(effect) => (effect.cost, name(effect)),
    };
    format!("{:X} {:X} {:X} {}", cpu.clock, cpu.pc, cycles, what)
}

fn name(effect: &Effect) -> String {
    match effect.kind {
        Kind::Entry(line) => format!("entry-{}", line),
        Kind::WaitEnd(line) => format!("wait-end-{}", line),
        Kind::Idle => "idle".to_string(),
        Kind::ReturnToRequest(line) => format!("RTI-to-{}", line),
        Kind::Instruction { page, opcode } => cell_at(page, opcode).operation.name(),
    }
}
