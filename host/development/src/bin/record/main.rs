//! Writes the recorded lists of crate `replay` and the output that they must have.
//!
//!     record stdin     prints the lists
//!     record stdout    prints the expected output
//!     record write     writes both files into crates/replay
//!
//! The output is computed by the checker and the ledger written apart (`reference`); the proved
//! library is not called.

mod expected;
mod line;
mod lists;

use std::path::Path;
use std::process::exit;

fn main() {
    let lines = lists::all();
    let input: String = lines.iter().map(|line| format!("{line}\n")).collect();
    match std::env::args().nth(1).as_deref() {
        Some("stdin") => print!("{input}"),
        Some("stdout") => print!("{}", expected::output(&lines)),
        Some("write") => {
            write("stdin", &input);
            write("stdout", &expected::output(&lines));
        }
        _ => {
            eprintln!("record stdin | stdout | write");
            exit(2);
        }
    }
}

fn write(name: &str, text: &str) {
    let package = Path::new(env!("CARGO_MANIFEST_DIR"));
    let file = package.join("../../crates/replay").join(name);
    std::fs::write(&file, text).unwrap_or_else(|error| {
        eprintln!("{}: {error}", file.display());
        exit(1);
    });
}
