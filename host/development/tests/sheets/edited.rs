//! What an accepted edit does to letters and characters, for the counts.

use bannelgo_development::calls::Call;
use bannelgo_development::reference::characters::{any_at, inside_character, Looked};

/// Whether it is an edit that changes only the cases of letters; begins or ends inside a character; splits a
/// character by what it puts in; joins two halves by what it takes out; goes on with a character that was broken off;
/// begins right behind an unlawful first byte. The texts are those before and after the call.
pub fn sorts(call: &Call, before: &[u8], after: &[u8]) -> [bool; 6] {
    let Call::Edit {
        start,
        end,
        replacement,
    } = call
    else {
        return [false; 6];
    };
    let old = &before[*start..*end];
    let only_cases = old != replacement && old.eq_ignore_ascii_case(replacement);
    let was_inside = inside_character(before, *start);
    let is_inside = inside_character(after, *start);
    let begun = !was_inside && is_inside;
    [
        only_cases,
        was_inside || inside_character(before, *end),
        was_inside && !is_inside && old.is_empty(),
        begun && replacement.is_empty(),
        begun && !replacement.is_empty(),
        *start > 0 && is_unlawful(before, *start - 1),
    ]
}

/// Whether the byte at a place is in no character and begins none, which any sees without another byte.
fn is_unlawful(text: &[u8], at: usize) -> bool {
    let alone = !text[at].is_ascii() && any_at(text, at) == Looked::alone(1);
    alone && !inside_character(text, at)
}
