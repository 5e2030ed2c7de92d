//! Times the proved library against Rust code written apart from it, in one run.

mod cases;
mod characters;
mod checks;
mod keys;
mod listings;
mod peers;
mod plot;
mod readings;
mod stack;
mod timing;
mod typing;

use std::process::ExitCode;

/// What is printed where no part is named.
const USUAL: [(&str, fn()); 7] = [
    ("checks", checks::print),
    ("readings", readings::print),
    ("cases", cases::print),
    ("characters", characters::print),
    ("keys", keys::print),
    ("listings", listings::print),
    ("stack", stack::print),
];

/// What runs only where it is named: `plot` writes a file, `peers` starts other programs.
const NAMED: [&str; 2] = ["plot", "peers"];

/// Does the parts that the arguments name.
fn main() -> ExitCode {
    let named: Vec<String> = std::env::args().skip(1).collect();
    let names: Vec<&str> = USUAL.iter().map(|part| part.0).chain(NAMED).collect();
    if let Some(unknown) = named.iter().find(|name| !names.contains(&name.as_str())) {
        let names = names.join(", ");
        eprintln!("there is no part {unknown}; the parts are {names}");
        return ExitCode::from(2);
    }
    let is_named = |name: &str| named.iter().any(|part| part == name);
    for (name, print) in USUAL {
        if named.is_empty() || is_named(name) {
            print();
            println!();
        }
    }
    if is_named("plot") {
        plot::make();
    }
    if is_named("peers") {
        return peers::print();
    }
    ExitCode::SUCCESS
}
