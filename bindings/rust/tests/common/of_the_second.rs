//! Between the two machines: the tests of the crate use it, and bench/.

use cpu12::State;
use second::cpu::Cpu;

/// The second emulator's state, as the crate has it.
pub fn state_of(cpu: &Cpu) -> State {
    let mut state = State::default();
    state.a = cpu.a;
    state.b = cpu.b;
    state.x = cpu.x;
    state.y = cpu.y;
    state.sp = cpu.sp;
    state.pc = cpu.pc;
    state.ccr = cpu.ccr;
    state.waiting = cpu.waiting;
    state.clock = cpu.clock;
    state
}
