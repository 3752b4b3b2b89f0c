//! The command line: `simple cases` answers the cases on standard input, a line each.

#![forbid(unsafe_code)]

mod case;

use std::io::{self, BufRead, BufWriter, Write};
use std::process::ExitCode;

fn main() -> ExitCode {
    let words: Vec<_> = std::env::args_os().skip(1).collect();
    if words != ["cases"] {
        eprintln!("usage: simple cases < CASES");
        return ExitCode::from(2);
    }
    match answer_all() {
        Ok(()) => ExitCode::SUCCESS,
        // Who reads has read enough.
        Err(error) if error.kind() == io::ErrorKind::BrokenPipe => ExitCode::SUCCESS,
        Err(error) => {
            eprintln!("simple: {error}");
            ExitCode::FAILURE
        }
    }
}

fn answer_all() -> io::Result<()> {
    let mut input = io::stdin().lock();
    let mut output = BufWriter::new(io::stdout().lock());
    let mut line = Vec::new();
    while input.read_until(b'\n', &mut line)? != 0 {
        let without_newline = line.strip_suffix(b"\n").unwrap_or(&line);
        writeln!(output, "{}", case::answer(without_newline))?;
        line.clear();
    }
    output.flush()
}
