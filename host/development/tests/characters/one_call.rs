//! By one call of `from_utf8` for the whole text.

use bannelgo_development::reference::characters::Looked;
use std::str::from_utf8;

/// What any does at the beginning of a text.
pub fn first_of(text: &[u8]) -> Looked {
    let (lawful, broken) = match from_utf8(text) {
        Ok(lawful) => (lawful.len(), None),
        Err(error) => (error.valid_up_to(), Some(error.error_len())),
    };
    match broken {
        _ if lawful > 0 => {
            let front = from_utf8(&text[..lawful]).expect("the front is lawful");
            let first = front.chars().next().expect("the front is not empty");
            Looked::character(first.len_utf8())
        }
        // The text ends inside its first character, and the end is looked at.
        Some(None) => Looked::alone(text.len() + 1),
        // So many bytes begin a character, and the next one does not go on with it.
        Some(Some(bytes)) if begins(text[0]) => Looked::alone(bytes + 1),
        Some(Some(_)) => Looked::alone(1),
        None => Looked::FAILED,
    }
}

/// Whether the byte is the first of some longer character.
fn begins(byte: u8) -> bool {
    from_utf8(&[byte]).is_err_and(|error| error.error_len().is_none())
}
