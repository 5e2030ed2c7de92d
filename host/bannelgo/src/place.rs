//! Places in a text, for people.

use std::fmt;

/// A place in a text as line and column, both from 1 on.
///
/// A line ends with a line feed. A column is a character in UTF-8, and its bytes are all in that column;
/// a byte that is in no character has a column of its own. [`any`](crate::grammar::any) takes the same
/// characters.
#[derive(Clone, Copy, Debug, PartialEq, Eq, PartialOrd, Ord, Hash)]
pub struct Place {
    /// The number of bytes before the place, which can be inside a character.
    pub offset: usize,
    /// The line, from 1 on.
    pub line: usize,
    /// The column, from 1 on.
    pub column: usize,
}

impl Place {
    /// The place of the byte with this offset; an offset past the text's end is its end.
    ///
    /// ```
    /// use bannelgo::Place;
    ///
    /// let place = Place::of(b"one\ntwo\n", 5);
    /// assert_eq!((place.line, place.column), (2, 2));
    /// assert_eq!(place.to_string(), "line 2, column 2");
    /// ```
    pub fn of(text: &[u8], offset: usize) -> Place {
        let offset = offset.min(text.len());
        let (before, behind) = text.split_at(offset);
        let newline = |byte: &u8| *byte == b'\n';
        let line_start = before.iter().rposition(newline).map_or(0, |at| at + 1);
        let line_end = behind
            .iter()
            .position(newline)
            .map_or(text.len(), |at| offset + at);
        let line = &text[line_start..line_end];
        Place {
            offset,
            line: 1 + before.iter().filter(|byte| newline(byte)).count(),
            column: 1 + whole_characters(line, offset - line_start),
        }
    }
}

/// How many characters of a line end in its first bytes.
fn whole_characters(line: &[u8], bytes: usize) -> usize {
    let lengths = line.utf8_chunks().flat_map(|chunk| {
        let characters = chunk.valid().chars().map(char::len_utf8);
        characters.chain(chunk.invalid().iter().map(|_| 1))
    });
    let ends = lengths.scan(0, |end, length| {
        *end += length;
        Some(*end)
    });
    ends.take_while(|&end| end <= bytes).count()
}

impl fmt::Display for Place {
    fn fmt(&self, out: &mut fmt::Formatter<'_>) -> fmt::Result {
        write!(out, "line {}, column {}", self.line, self.column)
    }
}
