//! The parser that peg makes of lines.peg, compiled by cc.

use super::peer::{answer_of, kept, kept_path, Lack, Peer, PEERS};
use std::path::Path;
use std::process::Command;

pub fn find() -> Result<Peer, Lack> {
    let peers = Path::new(PEERS);
    let version = run(Command::new("peg").arg("-V"), "peg")?;
    let parser = kept("lines.peg.c", b"").map_err(Lack::Failed)?;
    let mut peg = Command::new("peg");
    peg.arg("-P").arg("-o").arg(&parser);
    run(peg.arg(peers.join("lines.peg")), "peg")?;
    let program = kept_path("read_peg");
    let mut cc = Command::new("cc");
    cc.arg("-O2").arg("-I").arg(kept_path(""));
    cc.arg("-o").arg(&program).arg(peers.join("read_peg.c"));
    run(&mut cc, "gcc")?;
    Ok(Peer {
        name: format!("{}, cc -O2", version.trim().replace(" version", "")),
        command: vec![program],
    })
}

/// Runs a program that Debian's package has.
fn run(command: &mut Command, package: &str) -> Result<String, Lack> {
    let program = command.get_program().to_string_lossy().into_owned();
    let answer = answer_of(command).map_err(Lack::Failed)?;
    answer.ok_or_else(|| {
        let line = format!("{program} is not installed: apt-get install {package}");
        Lack::NotInstalled(line)
    })
}
