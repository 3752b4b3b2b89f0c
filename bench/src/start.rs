//! How the programs start and end.

/// The exit status of a program, whose work is lent the words of its command line.
pub fn status_of(work: fn(&[&str]) -> Result<(), String>) -> i32 {
    let words: Vec<String> = std::env::args().skip(1).collect();
    match work(&words.iter().map(String::as_str).collect::<Vec<_>>()) {
        Ok(()) => 0,
        Err(message) => {
            eprintln!("{message}");
            1
        }
    }
}
