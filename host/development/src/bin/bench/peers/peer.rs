//! A reader that is another program, and the files that it gets.
//!
//! The programs read.lua and read_peg.c of host/peers take the same words and print the same lines.

use super::figures::{Figures, BATCHES, READINGS};
use std::ffi::OsStr;
use std::path::{Path, PathBuf};
use std::process::Command;

pub const PEERS: &str = concat!(env!("CARGO_MANIFEST_DIR"), "/../peers");

const KEPT: &str = concat!(env!("CARGO_MANIFEST_DIR"), "/../../target/peers");

pub struct Peer {
    pub name: String,
    /// The program and its first words.
    pub command: Vec<PathBuf>,
}

/// Why there is no peer.
pub enum Lack {
    /// What to install.
    NotInstalled(String),
    Failed(String),
}

/// Lengths at each position; nothing where nothing matches.
pub type Lengths = Vec<Option<usize>>;

impl Peer {
    /// The length of the match, and the figures of a round.
    pub fn times(&self, text: &Path) -> Result<(Option<usize>, Figures), String> {
        let (batches, readings) = (BATCHES.to_string(), READINGS.to_string());
        let words = [
            OsStr::new("times"),
            text.as_os_str(),
            OsStr::new(&batches),
            OsStr::new(&readings),
        ];
        let line = self.answer(&words)?;
        let numbers: Vec<f64> = line
            .split_whitespace()
            .filter_map(|word| word.parse().ok())
            .collect();
        match numbers[..] {
            [length, lowest, median] => {
                let length = (length >= 0.0).then_some(length as usize);
                Ok((length, Figures { lowest, median }))
            }
            _ => Err(format!("{} answers {line:?}", self.name)),
        }
    }

    /// Each rule's name with its lengths, in the order of the rules' numbers.
    pub fn lengths(&self, text: &Path) -> Result<Vec<(String, Lengths)>, String> {
        let answer = self.answer(&[OsStr::new("lengths"), text.as_os_str()])?;
        let rule = |line: &str| {
            let mut words = line.split_whitespace();
            let name = words.next().unwrap_or_default().to_string();
            (name, words.map(|word| word.parse().ok()).collect())
        };
        Ok(answer.lines().map(rule).collect())
    }

    fn answer(&self, words: &[&OsStr]) -> Result<String, String> {
        let mut command = Command::new(&self.command[0]);
        command.args(&self.command[1..]).args(words);
        answer_of(&mut command)?.ok_or_else(|| format!("{} can't be started", self.name))
    }
}

/// What a program writes, on both outputs; nothing where it is not installed.
pub fn answer_of(command: &mut Command) -> Result<Option<String>, String> {
    let Ok(run) = command.output() else {
        return Ok(None);
    };
    let said = [run.stdout, run.stderr].concat();
    let said = String::from_utf8_lossy(&said).into_owned();
    if run.status.success() {
        return Ok(Some(said));
    }
    let program = command.get_program().to_string_lossy();
    Err(format!("{program}: {}\n{said}", run.status))
}

/// A file in target/peers.
pub fn kept_path(name: &str) -> PathBuf {
    Path::new(KEPT).join(name)
}

/// Writes a text to a file in target/peers and gives its path.
pub fn kept(name: &str, text: &[u8]) -> Result<PathBuf, String> {
    let path = kept_path(name);
    std::fs::create_dir_all(KEPT)
        .and_then(|()| std::fs::write(&path, text))
        .map_err(|error| format!("{}: {error}", path.display()))?;
    Ok(path)
}
