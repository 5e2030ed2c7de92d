//! The flags that a file for pkg-config asks for.

use std::fs;
use std::io::Write;
use std::path::Path;
use std::process::Command;

/// What bannelgo.pc says.
pub struct Package {
    pub version: String,
    pub flags: Vec<String>,
}

/// The flags of the bannelgo.pc in a folder, each with the way they were got: by pkg-config, where it is installed, and by reading the file.
pub fn flags(folder: &Path) -> Vec<(&'static str, Vec<String>)> {
    let asked = by_pkg_config(folder);
    let way = match asked {
        Some(_) => "by pkg-config, and by reading bannelgo.pc",
        None => "by reading bannelgo.pc: pkg-config is not installed",
    };
    // Past the capture of the tests' output.
    writeln!(std::io::stderr(), "the flags of the installed copy: {way}").expect("stderr is open");
    let read = ("by reading", read(folder).flags);
    asked
        .map(|flags| ("by pkg-config", flags))
        .into_iter()
        .chain([read])
        .collect()
}

fn by_pkg_config(folder: &Path) -> Option<Vec<String>> {
    let mut command = Command::new("pkg-config");
    command
        .args(["--cflags", "--libs", "bannelgo"])
        .env("PKG_CONFIG_PATH", folder);
    let output = command.output().ok()?;
    assert!(
        output.status.success(),
        "{command:?}: {}",
        String::from_utf8_lossy(&output.stderr)
    );
    Some(words(&String::from_utf8_lossy(&output.stdout)))
}

/// The words of a shell's line, in which a backslash takes the next character as it is.
fn words(line: &str) -> Vec<String> {
    let mut words = vec![String::new()];
    let mut characters = line.trim().chars();
    while let Some(character) = characters.next() {
        match character {
            '\\' => words
                .last_mut()
                .expect("there is one")
                .extend(characters.next()),
            ' ' => words.push(String::new()),
            other => words.last_mut().expect("there is one").push(other),
        }
    }
    words.retain(|word| !word.is_empty());
    words
}

/// Reads the bannelgo.pc in a folder: lines `name=value` for variables and `Name: value` for fields, `${name}` for a variable's value.
pub fn read(folder: &Path) -> Package {
    let text = fs::read_to_string(folder.join("bannelgo.pc")).expect("bannelgo.pc can be read");
    let mut variables = vec![("pcfiledir".to_string(), folder.display().to_string())];
    let mut package = Package {
        version: String::new(),
        flags: vec![],
    };
    for line in text.lines() {
        if let Some((name, value)) = line.split_once('=') {
            variables.push((name.to_string(), with_values(value, &variables)));
        } else if let Some((field, value)) = line.split_once(": ") {
            match field {
                "Version" => package.version = value.to_string(),
                "Cflags" | "Libs" => {
                    let flags = value.split_whitespace();
                    package
                        .flags
                        .extend(flags.map(|flag| with_values(flag, &variables)));
                }
                _ => {}
            }
        }
    }
    package
}

fn with_values(text: &str, variables: &[(String, String)]) -> String {
    variables
        .iter()
        .fold(text.to_string(), |text, (name, value)| {
            text.replace(&format!("${{{name}}}"), value)
        })
}
