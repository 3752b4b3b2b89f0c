//! What both programs use.

mod of_the_second;

use cpu12::Error;
pub use of_the_second::state_of;

/// The number of the reply.
pub fn number<T>(result: Result<T, Error>) -> u32 {
    result.map_or_else(Error::number, |_| 0)
}

/// The number in a variable of the environment.
pub fn asked(name: &str, otherwise: u64) -> u64 {
    match std::env::var(name) {
        Ok(text) => text.parse().expect("a decimal number"),
        Err(_) => otherwise,
    }
}
