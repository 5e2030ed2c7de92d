//! Compiles and runs the examples in host/c.

use std::path::{Path, PathBuf};
use std::process::{Command, Output};

pub struct Language {
    pub compiler: &'static str,
    pub example: &'static str,
    /// Those that the header is for, the oldest first.
    pub standards: &'static [&'static str],
}

pub const C: Language = Language {
    compiler: "cc",
    example: "example.c",
    standards: &["c99", "c11", "c17"],
};

pub const CPP: Language = Language {
    compiler: "c++",
    example: "example.cpp",
    standards: &["c++11", "c++14", "c++17", "c++20"],
};

impl Language {
    /// A run of the compiler by the oldest standard, or by the one that is named; warnings are errors.
    pub fn compiler(&self, standard: Option<&str>) -> Command {
        let standard = standard.unwrap_or(self.standards[0]);
        let mut compiler = Command::new(self.compiler);
        compiler.arg(format!("-std={standard}"));
        compiler.args(["-Wall", "-Wextra", "-Wpedantic", "-Werror"]);
        compiler
    }

    pub fn source(&self) -> PathBuf {
        repository().join("host/c").join(self.example)
    }
}

pub fn repository() -> PathBuf {
    Path::new(env!("CARGO_MANIFEST_DIR")).join("../..")
}

/// A folder of that name for a test's files, empty at first.
pub fn scratch(name: &str) -> PathBuf {
    let folder = Path::new(env!("CARGO_TARGET_TMPDIR")).join(name);
    if folder.exists() {
        std::fs::remove_dir_all(&folder).expect("the scratch folder can be removed");
    }
    std::fs::create_dir_all(&folder).expect("the scratch folder can be made");
    folder
}

pub fn run(command: &mut Command) -> Output {
    match command.output() {
        Ok(output) => output,
        Err(error) => panic!("{command:?}: {error}"),
    }
}

/// Runs a command that must succeed.
pub fn succeed(command: &mut Command) -> String {
    let output = run(command);
    assert!(output.status.success(), "{command:?}\n{}", said(&output));
    said(&output)
}

pub fn said(output: &Output) -> String {
    let said = [&output.stdout[..], &output.stderr[..]].concat();
    String::from_utf8_lossy(&said).into_owned()
}

/// What each example prints of M6: the rows of "12", indented by their depth.
const ROWS: &str = "
M6: 4 slots
  rule 0, start 0, length 2
    rule 1, start 0, length 1
    rule 1, start 1, length 1
";

/// Runs an example, whose answers must be the paper's.
pub fn gets_the_papers_answers(program: &Path) {
    let said = succeed(&mut Command::new(program));
    assert!(said.contains(ROWS), "{said}");
    assert!(said.ends_with("\n0 differences\n"), "{said}");
}
