//! A museum's rehang, replayed: first with the old design's two clocks, then with the sign's own firmware in both tiers of the
//! guide, then with a power warning at every cycle of the rehang, and at last with the supply cut at every cycle after a warning. It
//! prints a short account, the same each time.

mod account;
mod mail;
mod museum;
mod old;
mod power;
mod processor;
mod sign;
mod supply;
mod tiers;

use std::io;

/// Prints the account. That its reader may leave before the end is no failure.
fn tell() -> io::Result<()> {
    match account::tell(&mut io::stdout().lock()) {
        Err(error) if error.kind() == io::ErrorKind::BrokenPipe => Ok(()),
        told => told,
    }
}

fn main() -> io::Result<()> {
    tell()
}
