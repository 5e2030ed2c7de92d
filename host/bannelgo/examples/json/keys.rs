//! The keys that are typed, as edits.

use std::ops::Range;

/// Takes back the character in front of the cursor.
const BACKSPACE: char = '⌫';

/// Behind which part of the text the cursor is put, and the keys that are typed there.
const TYPED: [(&str, &str); 4] = [
    (
        "",
        r#"{"meter": "Köln 7",
 "gap": {"from": 8, "to": 9.5},
 "kWh": [12.5, nulk⌫l, 3e2]}"#,
    ),
    (r#""Köln 7""#, r#", "estimated": true"#),
    ("[", "["),
    ("null", "]"),
];

/// A key as an edit: these bytes of the text give way to what is typed.
pub struct Key {
    pub pressed: char,
    pub bytes: Range<usize>,
    pub typed: String,
}

/// All keys, in turn from an empty text on.
pub fn keys() -> Vec<Key> {
    let mut text = String::new();
    let mut keys = vec![];
    for (before, typed) in TYPED {
        let mut cursor = text.find(before).map_or(0, |at| at + before.len());
        for pressed in typed.chars() {
            let key = match pressed {
                BACKSPACE => taken_back(&text, cursor),
                _ => Key {
                    pressed,
                    bytes: cursor..cursor,
                    typed: pressed.to_string(),
                },
            };
            text.replace_range(key.bytes.clone(), &key.typed);
            cursor = key.bytes.start + key.typed.len();
            keys.push(key);
        }
    }
    keys
}

fn taken_back(text: &str, cursor: usize) -> Key {
    let last = text[..cursor].chars().next_back();
    Key {
        pressed: BACKSPACE,
        bytes: cursor - last.map_or(0, char::len_utf8)..cursor,
        typed: String::new(),
    }
}
