//! The forms of any's matches, for the counts of the tests.

use super::characters::Looked;

/// Which forms there were. A byte of ASCII has none of them.
#[derive(Clone, Copy, Debug, Default, PartialEq, Eq)]
pub struct Forms(u8);

impl Forms {
    /// Length and examined: a character of 2, 3 and 4 bytes; an unlawful first byte, which is alone; a byte alone where a
    /// character breaks off.
    pub const NAMES: [&str; 7] = [
        "2 of 2", "3 of 3", "4 of 4", "1 of 1", "1 of 2", "1 of 3", "1 of 4",
    ];

    /// The form of what any did at this byte, or at the end.
    pub fn of(looked: Looked, first: Option<&u8>) -> Forms {
        let place = match (looked.length, looked.examined) {
            _ if first.is_none_or(u8::is_ascii) => return Forms::default(),
            (Some(1), examined) => examined + 2,
            (_, bytes) => bytes - 2,
        };
        Forms(1 << place)
    }

    pub fn with(self, others: Forms) -> Forms {
        Forms(self.0 | others.0)
    }

    /// Whether there was the form with this place in `NAMES`.
    pub fn has(self, place: usize) -> bool {
        self.0 >> place & 1 == 1
    }
}
