//! Finds the proved static library: in the folder that `CPU12_LIBRARY` names, or else where `tools/prove library cpu12` writes it.
//!
//! A relative `CPU12_LIBRARY` is taken from the folder where cargo was called, as `PWD` has it, and then from this crate's folder, in
//! which cargo runs this program.

use std::env;
use std::path::{Path, PathBuf};
use std::process::exit;

const LIBRARY: &str = "libcpu12.a";

/// The folders to look in, in this order.
fn folders(here: &Path) -> Vec<PathBuf> {
    match env::var_os("CPU12_LIBRARY").map(PathBuf::from) {
        None => vec![here.ancestors().nth(2).unwrap_or(here).join("target/staticlib")],
        Some(named) if named.is_absolute() => vec![named],
        Some(named) => {
            println!("cargo:rerun-if-env-changed=PWD");
            let called = env::var_os("PWD").map(PathBuf::from);
            called.iter().map(PathBuf::as_path).chain([here]).map(|at| at.join(&named)).collect()
        }
    }
}

fn is_missing(tried: &[PathBuf]) -> ! {
    eprintln!("cpu12: the static library {} is not there. Tried:", LIBRARY);
    for folder in tried {
        eprintln!("    {}", folder.join(LIBRARY).display());
    }
    eprintln!(
        "`tools/prove library cpu12`, called in the Kisuvmeta repository, proves and writes it."
    );
    eprintln!("CPU12_LIBRARY names the folder of a library that lies elsewhere.");
    exit(1);
}

fn main() {
    println!("cargo:rerun-if-env-changed=CPU12_LIBRARY");
    let here = match env::current_dir() {
        Ok(here) => here,
        Err(error) => {
            eprintln!("cpu12: the crate's folder cannot be found: {}", error);
            exit(1);
        }
    };
    let tried = folders(&here);
    for folder in &tried {
        println!("cargo:rerun-if-changed={}", folder.join(LIBRARY).display());
    }
    let holds_library = |folder: &&PathBuf| folder.join(LIBRARY).is_file();
    let found = tried.iter().find(holds_library).unwrap_or_else(|| is_missing(&tried));
    if env::var("CARGO_CFG_TARGET_ARCH").map_or(false, |target| target != "x86_64") {
        println!("cargo:warning={} is for x86-64: this build will not link", LIBRARY);
    }
    println!("cargo:rustc-link-search=native={}", found.display());
    println!("cargo:rustc-link-lib=static=cpu12");
}
