//! One call under callgrind, which counts while the exported function runs.

use crate::calls::Counted;
use crate::moved;
use std::path::Path;
use std::process::Command;

/// What a call takes.
#[derive(Clone, Copy, Debug, Default, PartialEq, Eq)]
pub struct Count {
    /// The instructions of the library's own code.
    pub instructions: u64,
    /// The bytes that memcpy and memset write for it, as `moved` counts them.
    pub moved: u64,
}

/// Refuses where valgrind is not installed.
pub fn installed() -> Result<(), String> {
    match Command::new("valgrind").arg("--version").output() {
        Ok(_) => Ok(()),
        Err(_) => Err("valgrind is not installed: apt-get install valgrind".to_string()),
    }
}

/// Starts this program again under callgrind.
pub fn count(call: &Counted) -> Result<Count, String> {
    let program = std::env::current_exe().map_err(|error| error.to_string())?;
    let out = program.with_file_name("callgrind.out");
    let run = Command::new("valgrind")
        .args(["-q", "--tool=callgrind", "--dump-line=no"])
        .args(["--compress-strings=no", "--compress-pos=no"])
        .arg(format!("--toggle-collect={}", call.symbol))
        .arg(format!("--callgrind-out-file={}", out.display()))
        .arg(&program)
        .args(["call", &call.name])
        .output();
    let run = run.map_err(|error| format!("valgrind: {error}"))?;
    if !run.status.success() {
        let said = String::from_utf8_lossy(&run.stderr);
        return Err(format!("{}: {}\n{said}", call.name, run.status));
    }
    let kept = std::fs::read_to_string(&out).map_err(|error| format!("{}: {error}", call.name))?;
    let _ = std::fs::remove_file(&out);
    counted(&kept, &program, call.symbol).map_err(|trouble| format!("{}: {trouble}", call.name))
}

/// The sums over the functions of a callgrind file. A line behind `calls=` has what the called function took, which is counted there.
fn counted(kept: &str, program: &Path, symbol: &str) -> Result<Count, String> {
    let mut count = Count::default();
    let (mut object, mut function, mut called) = ("", "", "");
    let mut calls = 0;
    let mut lines = kept.lines();
    while let Some(line) = lines.next() {
        if let Some((key, value)) = line.split_once('=') {
            match key {
                "ob" => object = value,
                "fn" => function = value,
                "cfn" => called = value,
                "calls" => {
                    calls += if called == symbol { number(value)? } else { 0 };
                    lines.next();
                }
                _ => {}
            }
        } else if line.starts_with(|first: char| first.is_ascii_digit()) {
            let (_, cost) = line.split_once(' ').ok_or("a cost without a number")?;
            if Path::new(object) != program {
                return Err(format!("{function} of {object} is called too"));
            }
            if moved::FUNCTIONS.contains(&function) {
                count.moved += number(cost)?;
            } else {
                count.instructions += number(cost)?;
            }
        }
    }
    match calls {
        1 => Ok(count),
        _ => Err(format!("{symbol} is called {calls} times")),
    }
}

/// The number that a line begins with.
fn number(line: &str) -> Result<u64, String> {
    let digits = line.split(' ').next().unwrap_or_default();
    digits.parse().map_err(|_| format!("no number: {line}"))
}

#[cfg(test)]
mod tests {
    use super::*;

    const KEPT: &str = "\
positions: line
ob=/program
fn=main
cfn=bannelgo_open
calls=1 0
0 1130

fn=bannelgo_open
0 20
cfn=memset
calls=2 0
0 1100
0 10

fn=memset
0 1100
";

    fn of(kept: &str) -> Result<Count, String> {
        counted(kept, Path::new("/program"), "bannelgo_open")
    }

    #[test]
    fn each_function_is_counted_once() {
        let count = Count {
            instructions: 30,
            moved: 1_100,
        };
        assert_eq!(of(KEPT), Ok(count));
    }

    #[test]
    fn a_second_call_and_a_function_of_another_object_are_refused() {
        let twice = KEPT.replace("calls=1 0", "calls=2 0");
        assert_eq!(of(&twice), Err("bannelgo_open is called 2 times".into()));
        let elsewhere = KEPT.replace("fn=memset\n0 1100\n", "ob=/libc\nfn=memmove\n0 7\n");
        assert_eq!(of(&elsewhere), Err("memmove of /libc is called too".into()));
    }
}
