//! The command line: `second cases`, `generate`, `coverage`, `trace`, `cells`, `sums`,
//! `bench`, `help`.

use second::case::{answer, Case, Memories};
use second::coverage::Coverage;
use second::generate::{Generator, Kind};
use second::{bench, cells, memory, sums, trace};
use std::io::{self, BufRead, BufWriter, Read, Write};
use std::process::ExitCode;

const HELP: &str = "\
second: a second emulator of the CPU12 (HCS12 edition)

  second cases                      answers the cases on standard input, a line each
  second generate KIND COUNT SEED   writes random cases; KIND is s, r, z or mixed,
                                    COUNT and SEED are decimal
  second coverage                   reads cases and reports which cells and address
                                    forms they meet; status 1 if one was not met
  second trace                      prints the steps of the cases on standard input, and
                                    an empty line after each case
  second cells                      prints the opcode map, one line a cell
  second sums                       prints a checksum of each 8-bit operation over all
                                    its operands
  second bench                      resets and runs the image on standard input
  second help                       prints this text, as -h and --help do

What cannot be read on the command line gets a message, this text and status 2. A malformed
case and what cannot be read or written get a message and status 1.
";

/// Why a command failed. Messages have already been written in the first case.
enum Failure {
    Reported,
    Message(String),
    /// The command line cannot be read.
    Usage(String),
    Reading(io::Error),
    Writing(io::Error),
}

/// What is read says `Reading` itself; all else that can fail is writing.
impl From<io::Error> for Failure {
    fn from(error: io::Error) -> Failure {
        Failure::Writing(error)
    }
}

fn main() -> ExitCode {
    let arguments: Vec<String> =
        std::env::args_os().skip(1).map(|word| word.to_string_lossy().into_owned()).collect();
    let words: Vec<&str> = arguments.iter().map(String::as_str).collect();
    let result = match words.as_slice() {
        ["-h" | "--help" | "help", ..] => print_text(HELP),
        ["cases"] => cases(),
        ["generate", kind, count, seed] => generate(kind, count, seed),
        ["coverage"] => coverage(),
        ["trace"] => traces(),
        ["cells"] => print_lines(&cells::lines()),
        ["sums"] => print_lines(&sums::lines()),
        ["bench"] => run_bench(),
        words => Err(Failure::Usage(misread(words))),
    };
    let (message, status) = match result {
        Ok(()) => return ExitCode::SUCCESS,
        // Who reads has read enough.
        Err(Failure::Writing(error)) if error.kind() == io::ErrorKind::BrokenPipe => {
            return ExitCode::SUCCESS
        }
        Err(Failure::Reported) => return ExitCode::FAILURE,
        Err(Failure::Message(text)) => (text, 1),
        Err(Failure::Reading(error)) => (format!("cannot read the input: {}", error), 1),
        Err(Failure::Writing(error)) => (format!("cannot write the output: {}", error), 1),
        Err(Failure::Usage(text)) => (format!("{}\n\n{}", text, HELP.trim_end()), 2),
    };
    say(&message);
    ExitCode::from(status)
}

/// A message on standard error. Where that cannot be written either, the status remains.
fn say(text: &str) {
    let _ = writeln!(io::stderr(), "second: {}", text);
}

/// What is wrong with a command line that is none of the known ones.
fn misread(words: &[&str]) -> String {
    match words {
        [] => "a command is missing".to_string(),
        ["generate", ..] => "generate takes KIND, COUNT and SEED".to_string(),
        [command @ ("cases" | "coverage" | "trace" | "cells" | "sums" | "bench"), extra, ..] => {
            format!("{} takes no argument: '{}'", command, extra)
        }
        [word, ..] if word.starts_with('-') => format!("there is no option '{}'", word),
        [word, ..] => format!("there is no command '{}'", word),
    }
}

fn print_text(text: &str) -> Result<(), Failure> {
    let mut output = io::stdout();
    output.write_all(text.as_bytes())?;
    output.flush()?;
    Ok(())
}

fn print_lines(lines: &[String]) -> Result<(), Failure> {
    let mut text = lines.join("\n");
    text.push('\n');
    print_text(&text)
}

/// Hands every line of standard input, without its newline, to `each`, and keeps the
/// complaints with their line numbers.
fn for_each_line<F>(mut each: F) -> Result<Vec<String>, Failure>
where
    F: FnMut(Result<Case, String>) -> Result<(), Failure>,
{
    let mut input = io::stdin().lock();
    let mut line = Vec::new();
    let mut complaints = Vec::new();
    for number in 1u64.. {
        line.clear();
        if input.read_until(b'\n', &mut line).map_err(Failure::Reading)? == 0 {
            break;
        }
        if line.last() == Some(&b'\n') {
            line.pop();
        }
        let case = Case::parse(&line);
        if let Err(complaint) = &case {
            complaints.push(format!("line {}: {}", number, complaint));
        }
        each(case)?;
    }
    Ok(complaints)
}

/// Malformed lines are told on standard error, after everything has been answered.
fn complain(complaints: &[String]) -> Result<(), Failure> {
    for complaint in complaints {
        say(complaint);
    }
    if complaints.is_empty() {
        Ok(())
    } else {
        Err(Failure::Reported)
    }
}

fn cases() -> Result<(), Failure> {
    let mut output = BufWriter::new(io::stdout().lock());
    let mut memories = Memories::default();
    let complaints = for_each_line(|case| {
        match case {
            Ok(case) => writeln!(output, "{}", answer(&case, &mut memories))?,
            Err(_) => writeln!(output, "bad")?,
        }
        Ok(())
    })?;
    output.flush()?;
    complain(&complaints)
}

fn decimal(word: &str, place: &str) -> Result<u64, Failure> {
    let digits_only = !word.is_empty() && word.bytes().all(|c| c.is_ascii_digit());
    match word.parse() {
        Ok(number) if digits_only => Ok(number),
        _ => Err(Failure::Usage(format!("{} is no decimal number: '{}'", place, word))),
    }
}

fn generate(kind: &str, count: &str, seed: &str) -> Result<(), Failure> {
    let kind = Kind::from_word(kind)
        .ok_or_else(|| Failure::Usage(format!("KIND is none of s, r, z and mixed: '{}'", kind)))?;
    let count = decimal(count, "COUNT")?;
    let mut generator = Generator::new(kind, decimal(seed, "SEED")?);
    let mut output = BufWriter::new(io::stdout().lock());
    for _ in 0..count {
        writeln!(output, "{}", generator.next_case())?;
    }
    output.flush()?;
    Ok(())
}

fn coverage() -> Result<(), Failure> {
    let mut coverage = Coverage::default();
    let mut memories = Memories::default();
    let complaints = for_each_line(|case| {
        if let Ok(case) = case {
            coverage.add(&case, &mut memories);
        }
        Ok(())
    })?;
    let missing = coverage.missing();
    let mut lines = coverage.report();
    lines.push(if missing.is_empty() {
        "every cell and every address form was met".to_string()
    } else {
        format!("not met: {}", missing.join(", "))
    });
    print_lines(&lines)?;
    complain(&complaints)?;
    if missing.is_empty() {
        Ok(())
    } else {
        Err(Failure::Message(format!("{} cells or address forms were not met", missing.len())))
    }
}

/// A malformed case has no steps.
fn traces() -> Result<(), Failure> {
    let mut output = BufWriter::new(io::stdout().lock());
    let mut memories = Memories::default();
    let complaints = for_each_line(|case| {
        if let Ok(case) = case {
            for line in trace::lines(&case, &mut memories) {
                writeln!(output, "{}", line)?;
            }
        }
        writeln!(output)?;
        Ok(())
    })?;
    output.flush()?;
    complain(&complaints)
}

fn run_bench() -> Result<(), Failure> {
    // One byte more than an image is enough to know that it is too long.
    let mut image = Vec::new();
    let input = io::stdin().lock();
    input.take(memory::SIZE as u64 + 1).read_to_end(&mut image).map_err(Failure::Reading)?;
    print_lines(&[bench::report(&mut image)])
}
