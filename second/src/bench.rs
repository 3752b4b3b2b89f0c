//! The bench: an image is reset and run without requests for a million cycles.

use crate::machine::{reset, run, Reply};

pub const BUDGET: u32 = 1_000_000;

/// The one line that the bench prints for an image.
pub fn report(image: &mut [u8]) -> String {
    let (mut cpu, mut outcome) = reset(image);
    if outcome.reply == Reply::Done {
        outcome = run(&mut cpu, image, &[], BUDGET);
    }
    format!(
        "stop={} cycles={} pc={:04X} a={:02X} b={:02X} x={:04X} y={:04X} sp={:04X} ccr={:02X}",
        outcome.reply.number(),
        outcome.cycles,
        cpu.pc,
        cpu.a,
        cpu.b,
        cpu.x,
        cpu.y,
        cpu.sp,
        cpu.ccr
    )
}
