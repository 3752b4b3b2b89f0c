//! One image for a number of cycles, for tools/count_instructions: the run on one machine alone, and how many steps it takes.

use bench::images::{self, Image};
use bench::trial::{self, Run, Timed};

const USAGE: &str = "usage: image names
       image run MACHINE NAME CYCLES   on the machine 'proved' or 'simple' alone
       image wait CYCLES               a wait under 64 records on the proved machine
       image steps NAME CYCLES         prints how many steps the run takes; an idle cycle is one";

fn number(word: &str) -> Result<u32, String> {
    word.parse().map_err(|_| USAGE.to_string())
}

fn image(name: &str, cycles: &str) -> Result<Image, String> {
    images::named(name, number(cycles)?).ok_or_else(|| format!("there is no image '{name}'"))
}

fn machine(name: &str) -> Result<Run, String> {
    match name {
        "proved" => Ok(trial::by_the_proved),
        "simple" => Ok(trial::by_simple),
        _ => Err(USAGE.to_string()),
    }
}

fn run(run: Run, image: &Image) -> Result<(), String> {
    match run(image, &mut Timed::never()).reply {
        0 => Ok(()),
        reply => Err(format!("{}: the machine replies {reply}", image.name)),
    }
}

fn answer(words: &[&str]) -> Result<(), String> {
    match words {
        ["names"] => images::names().for_each(|name| println!("{name}")),
        ["run", by, name, cycles] => run(machine(by)?, &image(name, cycles)?)?,
        ["wait", cycles] => run(trial::by_the_proved, &images::asleep(number(cycles)?))?,
        ["steps", name, cycles] => println!("{}", trial::steps(&image(name, cycles)?).all),
        _ => return Err(USAGE.to_string()),
    }
    Ok(())
}

fn main() {
    std::process::exit(bench::start::status_of(answer));
}
