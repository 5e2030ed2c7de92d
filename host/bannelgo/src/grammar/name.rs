//! Names of rules in print.

use std::borrow::Cow;

/// A rule's name as it is; quoted and escaped where it is empty, or has a character that does not print,
/// a `"` or a `\`.
pub(crate) fn shown_name(name: &str) -> Cow<'_, str> {
    let prints = |part: &str| part.escape_debug().eq(part.chars());
    // An apostrophe prints, and escape_debug escapes it.
    match !name.is_empty() && name.split('\'').all(prints) {
        true => Cow::Borrowed(name),
        false => Cow::Owned(format!("{name:?}")),
    }
}
