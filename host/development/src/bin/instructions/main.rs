//! Counts the instructions of single calls of the proved library, by valgrind's callgrind. They do not hang on the machine's load,
//! and `moved` makes them the same on every machine.
//!
//!     instructions              prints the counts beside those of docs/INSTRUCTIONS.md
//!     instructions write        writes them to docs/INSTRUCTIONS.md
//!     instructions call NAME    makes the call of that name: what callgrind runs
//!
//! Exit status: 0 counted, 1 something is more than 1 % above the file's or the file has other calls, 2 not counted.

mod callgrind;
mod calls;
mod compare;
mod file;
mod moved;

use callgrind::installed;
use calls::Counted;
use std::process::ExitCode;

fn main() -> ExitCode {
    let words: Vec<String> = std::env::args().skip(1).collect();
    let words: Vec<&str> = words.iter().map(String::as_str).collect();
    let done = match words[..] {
        [] => installed().and_then(|()| compare::with_file(&calls::all())),
        ["write"] => installed().and_then(|()| write(&calls::all())),
        ["call", name] => call(name),
        _ => Err(format!(
            "there is no part {} of instructions; the only one is write",
            words.join(" ")
        )),
    };
    done.unwrap_or_else(|trouble| {
        eprintln!("{trouble}");
        ExitCode::from(2)
    })
}

fn write(calls: &[Counted]) -> Result<ExitCode, String> {
    let counted: Result<Vec<_>, String> = calls.iter().map(file::Row::counted).collect();
    file::write(&counted?)?;
    println!("{} is written: {} calls", file::NAME, calls.len());
    Ok(ExitCode::SUCCESS)
}

fn call(name: &str) -> Result<ExitCode, String> {
    let calls = calls::all();
    let found = calls.iter().find(|call| call.name == name);
    let call = found.ok_or_else(|| format!("there is no call with the name {name}"))?;
    (call.work)();
    Ok(ExitCode::SUCCESS)
}
