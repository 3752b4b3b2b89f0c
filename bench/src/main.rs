//! How long the proved machine, the yardstick `simple` and the second emulator take for the same runs.
//!
//! Each image is run from reset, with the same schedule and budget on all machines. What they leave has to be the same to the last
//! register and byte. docs/SPEED.md says what the images are and has the figures. The number of cycles may be given, for a short look.

use bench::images::{self, Image};
use bench::trial::{self, Left, Timed};
use bench::CYCLES;

/// How often a run is repeated; the shortest time counts.
const REPEATS: u32 = 5;

/// What the machines did with an image; the times are in seconds.
struct Measured {
    cycles: u32,
    proved: f64,
    simple: f64,
    second: f64,
}

/// All machines in turn, so that a disturbance of the computer meets each of them.
fn measure(image: &Image) -> Result<Measured, String> {
    let [mut proved, mut simple, mut second] = [(); 3].map(|_| Timed::never());
    let mut cycles = 0;
    for _ in 0..REPEATS {
        let by_proved = trial::by_the_proved(image, &mut proved);
        if by_proved.reply != 0 {
            return Err(format!("{}: the proved machine replies {}", image.name, by_proved.reply));
        }
        let by_simple = trial::by_simple(image, &mut simple);
        agree(image, &by_proved, "simple", &by_simple)?;
        let by_second = trial::by_the_second(image, &mut second);
        agree(image, &by_proved, "second", &by_second)?;
        cycles = by_proved.cycles;
    }
    let [proved, simple, second] = [proved, simple, second].map(|timed| timed.seconds());
    Ok(Measured { cycles, proved, simple, second })
}

/// The error says what the other machine leaves otherwise than the proved one.
fn agree(image: &Image, proved: &Left, other: &str, by_other: &Left) -> Result<(), String> {
    let name = image.name;
    let mut bytes = (0_u32..).zip(proved.memory.iter().zip(&by_other.memory));
    if let Some((address, (ours, theirs))) = bytes.find(|(_, (ours, theirs))| ours != theirs) {
        return Err(format!(
            "{name}: at ${address:04X} proved leaves ${ours:02X} and {other} ${theirs:02X}"
        ));
    }
    let (proved, by_other) = (proved.without_memory(), by_other.without_memory());
    if proved != by_other {
        return Err(format!("{name}:\n proved {proved:?}\n {other} {by_other:?}"));
    }
    Ok(())
}

/// The cycles of the run whose idle ones are counted, step by step.
const WATCHED: u32 = 256_000;

/// An image idles for the part of its cycles that it says, to within a hundredth of the run.
fn idles_as_it_says(image: &Image) -> Result<(), String> {
    let idle = trial::steps(image).idle;
    let part = f64::from(idle) / f64::from(image.budget);
    if (part - image.idle).abs() > 0.01 {
        return Err(format!("{}: {idle} of {} cycles are idle", image.name, image.budget));
    }
    Ok(())
}

fn print_heading() {
    println!("thread time in seconds, the best of {REPEATS} runs");
    println!(
        "{:<18}{:>10}{:>9}{:>9}{:>9}{:>15}{:>15}",
        "image", "cycles", "proved", "simple", "second", "proved/simple", "proved/second"
    );
}

fn print_line(image: &Image, m: &Measured) {
    let (to_simple, to_second) = (m.proved / m.simple, m.proved / m.second);
    println!(
        "{:<18}{:>10}{:>9.3}{:>9.3}{:>9.3}{to_simple:>15.2}{to_second:>15.2}",
        image.name, m.cycles, m.proved, m.simple, m.second
    );
}

fn print_summary(all: &[Measured]) {
    let ratios = all.iter().map(|m| m.proved / m.simple);
    let mean = ratios.clone().map(f64::ln).sum::<f64>() / all.len() as f64;
    let cycles: f64 = all.iter().map(|m| f64::from(m.cycles)).sum();
    let seconds: f64 = all.iter().map(|m| m.proved).sum();
    println!("geometric mean of proved/simple {:.2}", mean.exp());
    println!("largest proved/simple {:.2}", ratios.fold(0.0, f64::max));
    println!("the proved machine: {:.1} million cycles a second", cycles / seconds / 1e6);
}

fn run(budget: u32) -> Result<(), String> {
    images::all(WATCHED).iter().try_for_each(idles_as_it_says)?;
    print_heading();
    let mut all = Vec::new();
    for image in &images::all(budget) {
        let measured = measure(image)?;
        print_line(image, &measured);
        all.push(measured);
    }
    print_summary(&all);
    Ok(())
}

fn answer(words: &[&str]) -> Result<(), String> {
    let usage = || "usage: bench [CYCLES]".to_string();
    match words {
        [] => run(CYCLES),
        [cycles] => run(cycles.parse().map_err(|_| usage())?),
        _ => Err(usage()),
    }
}

fn main() {
    std::process::exit(bench::start::status_of(answer));
}
