//! One run of the demonstration, shared by the tests.

use std::fs::{read_to_string, File};
use std::io;
use std::path::Path;
use std::process::{Child, Command, ExitStatus};
use std::sync::OnceLock;
use std::thread::sleep;
use std::time::{Duration, Instant};

/// A run that takes longer is ended. A release build takes about two seconds, a debug build ten.
const LIMIT: Duration = Duration::from_secs(60);

pub struct Output {
    /// Nothing where the run was ended.
    pub status: Option<ExitStatus>,
    pub stdout: String,
    pub stderr: String,
}

pub fn output() -> &'static Output {
    static OUTPUT: OnceLock<Output> = OnceLock::new();
    OUTPUT.get_or_init(|| run().expect("the demonstration can be run"))
}

/// The lines between a part's heading and the next one.
pub fn part(name: &str) -> Vec<&'static str> {
    let lines = output().stdout.lines();
    let behind = lines.skip_while(|line| heading(line) != Some(name)).skip(1);
    behind.take_while(|line| heading(line).is_none()).collect()
}

/// The name in a heading: "-- name ---".
pub fn heading(line: &str) -> Option<&str> {
    let name = line.strip_prefix("-- ")?.trim_end_matches('-');
    Some(name.trim_end())
}

fn run() -> io::Result<Output> {
    let kept = |name: &str| Path::new(env!("CARGO_TARGET_TMPDIR")).join(name);
    let (stdout, stderr) = (kept("demo.stdout"), kept("demo.stderr"));
    let mut command = Command::new(env!("CARGO_BIN_EXE_demo"));
    command.stdout(File::create(&stdout)?);
    command.stderr(File::create(&stderr)?);
    Ok(Output {
        status: ended(command.spawn()?)?,
        stdout: read_to_string(&stdout)?,
        stderr: read_to_string(&stderr)?,
    })
}

fn ended(mut child: Child) -> io::Result<Option<ExitStatus>> {
    let begin = Instant::now();
    while begin.elapsed() < LIMIT {
        if let Some(status) = child.try_wait()? {
            return Ok(Some(status));
        }
        sleep(Duration::from_millis(20));
    }
    child.kill()?;
    child.wait()?;
    Ok(None)
}
