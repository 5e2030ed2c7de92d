//! The files that crate `replay` is run on are what `record` makes, so that they cannot drift from it.

use std::path::Path;
use std::process::Command;

fn recorded(name: &str) {
    let made = Command::new(env!("CARGO_BIN_EXE_record"))
        .arg(name)
        .output();
    let made = made.expect("record runs");
    assert!(made.status.success(), "record {name}");
    let package = Path::new(env!("CARGO_MANIFEST_DIR"));
    let file = package.join("../../crates/replay").join(name);
    let kept = std::fs::read(&file).expect("the recorded file is there");
    assert!(
        kept == made.stdout,
        "crates/replay/{name} is not what `record {name}` prints; `record write` writes it"
    );
}

#[test]
fn the_input_is_the_generators() {
    recorded("stdin");
}

#[test]
fn the_output_is_the_ledgers() {
    recorded("stdout");
}
