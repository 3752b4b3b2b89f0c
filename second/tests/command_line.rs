//! The program itself: its commands, its messages and its exit status.

use std::io::Write;
use std::process::{Command, Output, Stdio};

fn second(arguments: &[&str], input: &[u8]) -> Output {
    let mut child = Command::new(env!("CARGO_BIN_EXE_second"))
        .args(arguments)
        .stdin(Stdio::piped())
        .stdout(Stdio::piped())
        .stderr(Stdio::piped())
        .spawn()
        .unwrap();
    let mut stdin = child.stdin.take().unwrap();
    let input = input.to_vec();
    let writer = std::thread::spawn(move || {
        // A command that needs no input may be gone already.
        let _ = stdin.write_all(&input);
    });
    let output = child.wait_with_output().unwrap();
    writer.join().unwrap();
    output
}

fn text(bytes: &[u8]) -> &str {
    std::str::from_utf8(bytes).unwrap()
}

#[test]
fn cases_are_answered_line_by_line() {
    let output = second(&["cases"], b"z 0 0 0\nz 1 0 0");
    assert_eq!(text(&output.stdout), "1 0 0 0 0 0 0 0 D0 0 0 0\n".repeat(2));
    assert_eq!((text(&output.stderr), output.status.code()), ("", Some(0)));
    let nothing = second(&["cases"], b"");
    assert_eq!((nothing.stdout.len(), nothing.status.code()), (0, Some(0)));
}

#[test]
fn malformed_lines_are_answered_bad_and_named_afterwards() {
    let output = second(&["cases"], b"z 0 0 0\nq 1\n\nz 0 0 0\nz 99999 0 0\n");
    let good = "1 0 0 0 0 0 0 0 D0 0 0 0\n";
    assert_eq!(text(&output.stdout), format!("{}bad\nbad\n{}bad\n", good, good));
    let complaints: Vec<&str> = text(&output.stderr).lines().collect();
    assert_eq!(complaints.len(), 3);
    for (complaint, number) in complaints.iter().zip([2, 3, 5]) {
        assert!(complaint.contains(&format!("line {}:", number)), "{}", complaint);
    }
    assert!(complaints[2].contains("LEN"), "{}", complaints[2]);
    assert_eq!(output.status.code(), Some(1));
}

#[test]
fn generate_gives_the_same_cases_for_the_same_seed() {
    let one = second(&["generate", "mixed", "500", "42"], b"");
    let two = second(&["generate", "mixed", "500", "42"], b"");
    let other = second(&["generate", "mixed", "500", "43"], b"");
    assert_eq!(one.stdout, two.stdout);
    assert_ne!(one.stdout, other.stdout);
    assert_eq!(text(&one.stdout).lines().count(), 500);
    let answers = second(&["cases"], &one.stdout);
    assert_eq!(text(&answers.stdout).lines().count(), 500);
    assert!(!text(&answers.stdout).contains("bad"));
    assert_eq!(answers.status.code(), Some(0));
}

#[test]
fn each_kind_writes_its_letter() {
    for (kind, letter) in [("s", "s "), ("r", "r "), ("z", "z ")] {
        let output = second(&["generate", kind, "50", "1"], b"");
        assert!(text(&output.stdout).lines().all(|line| line.starts_with(letter)));
    }
}

#[test]
fn a_wrong_command_line_gets_a_message_the_usage_and_status_2() {
    let help = text(&second(&["help"], b"").stdout).to_string();
    let wrong: [(&[&str], &str); 14] = [
        (&[], "a command is missing"),
        (&[""], "there is no command ''"),
        (&["nonsense"], "there is no command 'nonsense'"),
        (&["nonsense", "extra"], "there is no command 'nonsense'"),
        (&["--nonsense"], "there is no option '--nonsense'"),
        (&["-x", "cases"], "there is no option '-x'"),
        (&["cases", "extra"], "cases takes no argument: 'extra'"),
        (&["sums", "--extra"], "sums takes no argument: '--extra'"),
        (&["generate", "s", "1"], "generate takes KIND, COUNT and SEED"),
        (&["generate", "q", "1", "1"], "KIND is none of s, r, z and mixed: 'q'"),
        (&["generate", "s", "many", "1"], "COUNT is no decimal number: 'many'"),
        (&["generate", "s", "1", "-1"], "SEED is no decimal number: '-1'"),
        (&["generate", "s", "+1", "1"], "COUNT is no decimal number: '+1'"),
        (&["generate", "s", "1", ""], "SEED is no decimal number: ''"),
    ];
    for (arguments, message) in wrong {
        let output = second(arguments, b"");
        assert_eq!(text(&output.stderr), format!("second: {}\n\n{}", message, help));
        assert_eq!((output.stdout.len(), output.status.code()), (0, Some(2)), "{:?}", arguments);
    }
}

#[test]
fn an_argument_that_is_no_text_is_refused_as_others_are() {
    use std::os::unix::ffi::OsStrExt;
    let mut command = Command::new(env!("CARGO_BIN_EXE_second"));
    let output = command.arg(std::ffi::OsStr::from_bytes(b"\xFF")).output().unwrap();
    assert_eq!(output.status.code(), Some(2));
    assert!(text(&output.stderr).starts_with("second: there is no command"));
}

/// A command with standard input from a file, and with standard output and standard error
/// at files that take nothing.
fn on_full_disk(arguments: &[&str], input: &str, full_error: bool) -> Output {
    let full = || std::fs::OpenOptions::new().write(true).open("/dev/full").unwrap();
    Command::new(env!("CARGO_BIN_EXE_second"))
        .args(arguments)
        .stdin(std::fs::File::open(input).unwrap())
        .stdout(full())
        .stderr(if full_error { full().into() } else { Stdio::piped() })
        .spawn()
        .unwrap()
        .wait_with_output()
        .unwrap()
}

#[test]
fn output_that_cannot_be_written_is_an_error() {
    let cases = concat!(env!("CARGO_MANIFEST_DIR"), "/../crates/cases/stdin");
    let commands: [&[&str]; 8] = [
        &["help"],
        &["cells"],
        &["sums"],
        &["bench"],
        &["cases"],
        &["coverage"],
        &["trace"],
        &["generate", "s", "10", "1"],
    ];
    for arguments in commands {
        let output = on_full_disk(arguments, cases, false);
        let message = "second: cannot write the output: No space left on device (os error 28)\n";
        assert_eq!(text(&output.stderr), message, "{:?}", arguments);
        assert_eq!(output.status.code(), Some(1), "{:?}", arguments);
        assert_eq!(on_full_disk(arguments, cases, true).status.code(), Some(1));
    }
    assert_eq!(on_full_disk(&["nonsense"], cases, true).status.code(), Some(2));
}

#[test]
fn input_that_cannot_be_read_is_an_error() {
    for arguments in [["cases"], ["coverage"], ["trace"], ["bench"]] {
        let output = Command::new(env!("CARGO_BIN_EXE_second"))
            .args(arguments)
            .stdin(std::fs::File::open("/").unwrap())
            .output()
            .unwrap();
        assert!(text(&output.stderr).starts_with("second: cannot read the input: "));
        assert_eq!((output.stdout.len(), output.status.code()), (0, Some(1)));
    }
}

#[test]
fn a_reader_that_leaves_is_no_error() {
    for arguments in [["cells", "", "", ""], ["generate", "s", "100000", "1"]] {
        let arguments = arguments.iter().filter(|word| !word.is_empty());
        let mut child = Command::new(env!("CARGO_BIN_EXE_second"))
            .args(arguments)
            .stdout(Stdio::piped())
            .stderr(Stdio::piped())
            .spawn()
            .unwrap();
        drop(child.stdout.take());
        let output = child.wait_with_output().unwrap();
        assert_eq!((text(&output.stderr), output.status.code()), ("", Some(0)));
    }
}

#[test]
fn coverage_reports_and_fails_when_a_cell_is_missing() {
    let cases = second(&["generate", "s", "20000", "1"], b"");
    let full = second(&["coverage"], &cases.stdout);
    assert_eq!(full.status.code(), Some(0));
    let cells = text(&full.stdout).lines().filter(|line| line.starts_with("cell ")).count();
    assert_eq!(cells, 512);
    let part = second(&["coverage"], b"s 10000 0 1 4000 A7 0 0 0 0 0 4000 D0 0 0 0\n");
    assert_eq!(part.status.code(), Some(1));
    let last = text(&part.stdout).lines().last().unwrap();
    assert!(last.starts_with("not met: cell 1 00 BGND"), "{}", last);
    assert!(!last.contains("cell 1 A7 NOP"));
    assert!(text(&part.stdout).contains("cell 1 A7 NOP 1\n"));
    assert!(text(&part.stdout).contains("form INH 1\n"));
}

#[test]
fn coverage_names_malformed_lines() {
    let output = second(&["coverage"], b"z 0 0 0\nx\n");
    assert_eq!(output.status.code(), Some(1));
    assert!(text(&output.stderr).contains("line 2:"));
}

/// NOP, an entry of IRQ, the handler's RTI while the line is up, and the same once more, for which
/// nine cycles are too few. Then a stop, a reset and a line that is no case.
#[test]
fn trace_prints_every_step() {
    let run =
        "r 10000 0 5 4000 A7 FFF2 50 5000 B FFFE 40 4001 A7 0 0 0 0 2000 4000 0 0 64 1D 1 65 2";
    let stop = "s 10000 0 0 0 0 0 0 0 4000 0 0 9 0";
    let output = second(&["trace"], format!("{}\n{}\nz 0 0 0\nx\n", run, stop).as_bytes());
    let steps = "64 4000 1 NOP\n65 4001 9 entry-1\n6E 5000 A RTI-to-1\n78 5000 A RTI-to-1 9\n";
    assert_eq!(text(&output.stdout), format!("{}\n9 4000 0 stop\n\n\n\n", steps));
    assert_eq!(output.status.code(), Some(1));
    assert!(text(&output.stderr).contains("line 4:"));
}

#[test]
fn cells_prints_the_map() {
    let output = second(&["cells"], b"");
    let lines: Vec<&str> = text(&output.stdout).lines().collect();
    assert_eq!((lines.len(), output.status.code()), (512, Some(0)));
    assert_eq!((lines[0], lines[511]), ("1 00 BGND 1 -", "2 FF TRAP 2 10"));
}

#[test]
fn bench_prints_one_line() {
    let mut image = vec![0; 65_536];
    image[0x4000..0x4005].copy_from_slice(&[0x86, 0x7F, 0x8B, 0x01, 0x00]);
    image[0xFFFE] = 0x40;
    let output = second(&["bench"], &image);
    let line = "stop=4 cycles=2 pc=4004 a=80 b=00 x=0000 y=0000 sp=0000 ccr=FA\n";
    assert_eq!((text(&output.stdout), output.status.code()), (line, Some(0)));
    for length in [0, 65_535, 65_537, 200_000] {
        let output = second(&["bench"], &vec![0x40; length]);
        let line = "stop=1 cycles=0 pc=0000 a=00 b=00 x=0000 y=0000 sp=0000 ccr=D0\n";
        assert_eq!((text(&output.stdout), output.status.code()), (line, Some(0)));
    }
}

#[test]
fn help_names_every_command() {
    for word in ["help", "--help", "-h"] {
        let output = second(&[word], b"");
        let commands = ["cases", "generate", "coverage", "trace", "cells", "sums", "bench", "help"];
        for command in commands {
            assert!(text(&output.stdout).contains(&format!("second {}", command)));
        }
        assert_eq!((text(&output.stderr), output.status.code()), ("", Some(0)));
    }
}
