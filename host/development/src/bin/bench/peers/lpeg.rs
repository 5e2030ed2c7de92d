//! LPeg, under the first Lua interpreter that finds it.

use super::peer::{answer_of, Lack, Peer, PEERS};
use std::path::Path;
use std::process::Command;

const INTERPRETERS: [&str; 6] = ["lua", "lua5.4", "lua5.3", "luajit", "lua5.2", "lua5.1"];

/// In some editions the version is a function.
const VERSIONS: &str = "local version = require('lpeg').version
    if type(version) == 'function' then version = version() end
    io.write('LPeg ', (version:gsub('LPeg ', '')), ', ', _VERSION)";

pub fn find() -> Result<Peer, Lack> {
    let found = INTERPRETERS.iter().find_map(|interpreter| {
        let mut command = Command::new(interpreter);
        let versions = answer_of(command.args(["-e", VERSIONS])).ok()??;
        Some(Peer {
            name: versions,
            command: vec![interpreter.into(), Path::new(PEERS).join("read.lua")],
        })
    });
    found.ok_or_else(|| {
        let line = "no Lua interpreter finds LPeg: apt-get install lua5.4 lua-lpeg";
        Lack::NotInstalled(line.to_string())
    })
}
