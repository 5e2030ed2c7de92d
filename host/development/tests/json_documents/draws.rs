//! Drawn documents, printed with whitespace of any kind, and edits of a single byte.

use bannelgo_development::calls::Call;
use bannelgo_development::rng::Rng;

/// A JSON text of some ten to some hundred bytes.
pub fn drawn_document(rng: &mut Rng) -> Vec<u8> {
    let mut document = Document { rng, text: vec![] };
    document.space();
    document.value(4);
    document.space();
    document.text
}

/// One byte more, less or other, and the edit that takes it back.
pub fn drawn_edit(rng: &mut Rng, text: &[u8]) -> (Call, Call) {
    let byte = match rng.one_in(4) {
        true => rng.byte(),
        false => *rng.pick(b"{}[]:,\"\\ \n-+.0123456789eEtfnulrsab/"),
    };
    let start = rng.below(text.len());
    let (length, replacement) = match rng.below(3) {
        0 => (0, vec![byte]),
        1 => (1, vec![]),
        _ => (1, vec![byte]),
    };
    let removed = text[start..start + length].to_vec();
    let (end, end_after) = (start + length, start + replacement.len());
    (
        edit(start, end, replacement),
        edit(start, end_after, removed),
    )
}

fn edit(start: usize, end: usize, replacement: Vec<u8>) -> Call {
    Call::Edit {
        start,
        end,
        replacement,
    }
}

struct Document<'a> {
    rng: &'a mut Rng,
    text: Vec<u8>,
}

impl Document<'_> {
    fn put(&mut self, bytes: impl AsRef<[u8]>) {
        self.text.extend_from_slice(bytes.as_ref());
    }

    fn space(&mut self) {
        for _ in 0..self.rng.below(4).saturating_sub(1) {
            let space = *self.rng.pick(b" \t\n\r");
            self.put([space]);
        }
    }

    /// A value with at most so many brackets inside each other.
    fn value(&mut self, depth: usize) {
        let kinds = if depth == 0 { 3 } else { 5 };
        match self.rng.below(kinds) {
            0 => self.literal(),
            1 => self.number(),
            2 => self.string(),
            3 => self.list(b'[', b']', |document| document.value(depth - 1)),
            _ => self.list(b'{', b'}', |document| document.member(depth - 1)),
        }
    }

    fn literal(&mut self) {
        let literal = *self.rng.pick(&["null", "true", "false"]);
        self.put(literal);
    }

    fn list(&mut self, begin: u8, end: u8, mut item: impl FnMut(&mut Self)) {
        self.put([begin]);
        self.space();
        for place in 0..self.rng.below(5) {
            if place > 0 {
                self.put(",");
                self.space();
            }
            item(self);
            self.space();
        }
        self.put([end]);
    }

    fn member(&mut self, depth: usize) {
        self.string();
        self.space();
        self.put(":");
        self.space();
        self.value(depth);
    }

    fn number(&mut self) {
        let sign = *self.rng.pick(&["", "-"]);
        let int = self.rng.skewed(0, 40);
        self.put(format!("{sign}{int}"));
        if self.rng.one_in(3) {
            self.put(".");
            self.digits();
        }
        if self.rng.one_in(3) {
            let e = *self.rng.pick(&["e", "E", "e+", "E-"]);
            self.put(e);
            self.digits();
        }
    }

    fn digits(&mut self) {
        for _ in 0..self.rng.between(1, 4) {
            let digit = *self.rng.pick(b"0123456789");
            self.put([digit]);
        }
    }

    fn string(&mut self) {
        self.put("\"");
        for _ in 0..self.rng.below(8) {
            match self.rng.below(6) {
                0 => self.escaped(),
                1 => self.code(),
                _ => self.character(),
            }
        }
        self.put("\"");
    }

    fn escaped(&mut self) {
        let escaped = *self.rng.pick(br#""\/bfnrt"#);
        self.put([b'\\', escaped]);
    }

    fn code(&mut self) {
        let code = self.rng.below(0x1_0000);
        match self.rng.one_in(2) {
            true => self.put(format!("\\u{code:04x}")),
            false => self.put(format!("\\u{code:04X}")),
        }
    }

    /// Any character that need not be escaped, of one to four bytes.
    fn character(&mut self) {
        let bits = *self.rng.pick(&[7, 7, 11, 16, 21]);
        let drawn = char::from_u32(self.rng.below(1 << bits) as u32);
        let stands = |drawn: &char| *drawn >= ' ' && *drawn != '"' && *drawn != '\\';
        let character = drawn.filter(stands).unwrap_or('a');
        self.put(character.to_string());
    }
}
