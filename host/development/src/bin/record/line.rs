//! A line of the program's input.

use bannelgo_development::calls::Call;
use std::fmt;

pub enum Line {
    Comment(&'static str),
    Image(Vec<u8>),
    Lend {
        cap: usize,
        words: usize,
    },
    Open(Vec<u8>),
    Call(Call),
    /// A line that the program does not take, and its message.
    Bad(&'static str, &'static str),
}

impl fmt::Display for Line {
    fn fmt(&self, out: &mut fmt::Formatter<'_>) -> fmt::Result {
        match self {
            Line::Comment(words) => write!(out, "# {words}"),
            Line::Image(image) => {
                write!(out, "image")?;
                upper_case(image, out)
            }
            Line::Lend { cap, words } => write!(out, "lend {cap} {words}"),
            Line::Open(text) => {
                write!(out, "open")?;
                lower_case(text, out)
            }
            Line::Call(call) => call_line(call, out),
            Line::Bad(line, _) => write!(out, "{line}"),
        }
    }
}

fn call_line(call: &Call, out: &mut fmt::Formatter<'_>) -> fmt::Result {
    match call {
        Call::Edit {
            start,
            end,
            replacement,
        } => {
            write!(out, "edit {start} {end}")?;
            lower_case(replacement, out)
        }
        Call::Read => write!(out, "read"),
        Call::LookUp { rule, position } => write!(out, "look {rule} {position}"),
        Call::List { slots } => write!(out, "list {slots}"),
    }
}

/// A space and the bytes; nothing where there are none.
fn lower_case(bytes: &[u8], out: &mut fmt::Formatter<'_>) -> fmt::Result {
    if !bytes.is_empty() {
        write!(out, " ")?;
    }
    bytes.iter().try_for_each(|byte| write!(out, "{byte:02x}"))
}

fn upper_case(bytes: &[u8], out: &mut fmt::Formatter<'_>) -> fmt::Result {
    if !bytes.is_empty() {
        write!(out, " ")?;
    }
    bytes.iter().try_for_each(|byte| write!(out, "{byte:02X}"))
}
