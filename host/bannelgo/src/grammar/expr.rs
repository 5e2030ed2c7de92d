//! Expressions, kept flat: a node comes before its parts, so that no depth of them uses up the stack.

use super::MOST_NODES;

/// A parsing expression: what a rule matches. The functions of this module make them.
///
/// An expression of more than 1,024 nodes is only counted, and the grammar that has it is refused.
///
/// ```
/// use bannelgo::grammar::{literal, range, sequence, Expr, Grammar};
///
/// /// Two digits: an expression that a rule uses twice.
/// fn two_digits() -> Expr {
///     sequence([range(b'0', b'9'), range(b'0', b'9')])
/// }
///
/// let time = sequence([two_digits(), literal(":"), two_digits()]);
/// let grammar = Grammar::builder().rule("Time", time).build()?;
/// assert!(grammar.read("08:15")?.is_whole());
/// # Ok::<(), Box<dyn std::error::Error>>(())
/// ```
#[derive(Clone, Debug, PartialEq, Eq)]
pub struct Expr {
    /// A node, then those of its first part, then those of its second; none where there are too many.
    pub(super) parts: Vec<Part>,
    pub(super) nodes: usize,
}

/// One node, without its parts.
#[derive(Clone, Debug, PartialEq, Eq)]
pub(super) enum Part {
    Empty,
    Any,
    /// With `fold` in either ASCII case.
    Range {
        low: u8,
        high: u8,
        fold: bool,
    },
    Then,
    Else,
    Star,
    Not,
    Call(String),
}

impl Part {
    /// How many parts it has.
    pub(super) fn arity(&self) -> usize {
        match self {
            Part::Empty | Part::Any | Part::Range { .. } | Part::Call(_) => 0,
            Part::Star | Part::Not => 1,
            Part::Then | Part::Else => 2,
        }
    }
}

impl Expr {
    fn leaf(part: Part) -> Expr {
        Expr {
            parts: vec![part],
            nodes: 1,
        }
    }

    /// A node over one part.
    fn over(part: Part, a: Expr) -> Expr {
        let mut expr = Expr::leaf(part);
        expr.append(a);
        expr
    }

    /// The parts joined two by two, nested to the right.
    fn joined(joint: Part, parts: impl IntoIterator<Item = Expr>) -> Option<Expr> {
        let mut parts = parts.into_iter();
        let mut last = parts.next()?;
        let mut expr = Expr {
            parts: vec![],
            nodes: 0,
        };
        for part in parts {
            expr.append(Expr::leaf(joint.clone()));
            expr.append(last);
            last = part;
        }
        expr.append(last);
        Some(expr)
    }

    /// Past the limit nothing is kept but the count.
    fn append(&mut self, mut other: Expr) {
        self.nodes = self.nodes.saturating_add(other.nodes);
        if self.nodes > MOST_NODES {
            self.parts = vec![];
        } else {
            self.parts.append(&mut other.parts);
        }
    }
}

/// Matches nothing long, always.
///
/// ```
/// use bannelgo::grammar::{choice, empty, literal, Grammar};
///
/// let sign = choice([literal("-"), empty()]); // what optional(literal("-")) is
/// let grammar = Grammar::builder().rule("Sign", sign).build()?;
/// assert!(grammar.read("-")?.is_whole());
/// assert!(grammar.read("")?.is_whole());
/// # Ok::<(), Box<dyn std::error::Error>>(())
/// ```
pub fn empty() -> Expr {
    Expr::leaf(Part::Empty)
}

/// Any one character of UTF-8 as RFC 3629 defines it, of 1 to 4 bytes. A byte that begins no lawful
/// character matches alone, and so does one whose character breaks off. It fails only at the text's end.
///
/// An accent that is a character of its own behind its letter, such as U+0308, is taken by itself. Any
/// one byte is `range(0, 255)`.
///
/// ```
/// use bannelgo::grammar::{any, not, sequence, Grammar};
///
/// let one = sequence([any(), not(any())]); // not(any()) is the end of the text
/// let grammar = Grammar::builder().rule("One", one).build()?;
/// assert!(grammar.read("x")?.is_whole());
/// assert!(grammar.read("ö")?.is_whole()); // one character, and two bytes in UTF-8
/// assert!(grammar.read(b"\xC3")?.is_whole()); // the first of these bytes alone
/// assert!(!grammar.read("ox")?.is_whole());
/// # Ok::<(), Box<dyn std::error::Error>>(())
/// ```
pub fn any() -> Expr {
    Expr::leaf(Part::Any)
}

/// This byte. A character outside ASCII has two bytes or more, and is a [`literal`].
///
/// ```
/// use bannelgo::grammar::{byte, literal, sequence};
///
/// assert_eq!(byte(b';'), literal(";"));
/// assert_eq!(sequence([byte(0xC3), byte(0xB6)]), literal("ö"));
/// ```
pub fn byte(value: u8) -> Expr {
    range(value, value)
}

/// One byte from `low` to `high`, both included. Of a letter with an accent it takes one byte: such
/// letters are [`one_of`] them or, where any may come, [`not`] what ends the word, then [`any`].
///
/// ```
/// use bannelgo::grammar::{any, not, one_of, plus, range, sequence, Grammar};
///
/// let grammar = Grammar::builder().rule("Digit", range(b'0', b'9')).build()?;
/// assert!(grammar.read("7")?.is_whole());
///
/// let grammar = Grammar::builder().rule("Name", plus(range(b'a', b'z'))).build()?;
/// assert_eq!(grammar.read("köln;")?.length, 1); // no ö
/// let letter = sequence([not(one_of(" ;\n")), any()]);
/// let grammar = Grammar::builder().rule("Name", plus(letter)).build()?;
/// assert_eq!(grammar.read("köln;")?.length, 5);
/// # Ok::<(), Box<dyn std::error::Error>>(())
/// ```
pub fn range(low: u8, high: u8) -> Expr {
    let fold = false;
    Expr::leaf(Part::Range { low, high, fold })
}

/// One of these characters, each by its bytes in UTF-8. None at all never matches.
///
/// ```
/// use bannelgo::grammar::{one_of, Grammar};
///
/// let grammar = Grammar::builder().rule("Sign", one_of("+-±")).build()?;
/// assert!(grammar.read("-")?.is_whole());
/// assert!(grammar.read("±")?.is_whole());
/// # Ok::<(), Box<dyn std::error::Error>>(())
/// ```
pub fn one_of(characters: &str) -> Expr {
    choice(characters.chars().map(|one| literal(one.to_string())))
}

/// These bytes one after the other. No byte at all matches nothing long.
///
/// ```
/// use bannelgo::grammar::{literal, Grammar};
///
/// let grammar = Grammar::builder().rule("Arrow", literal("→")).build()?;
/// assert_eq!(grammar.read("→ x")?.length, 3); // its bytes in UTF-8
/// # Ok::<(), Box<dyn std::error::Error>>(())
/// ```
pub fn literal(text: impl AsRef<[u8]>) -> Expr {
    sequence(text.as_ref().iter().map(|&value| byte(value)))
}

/// `part` with its letters in either case: each byte and each range in it also matches a letter that it
/// has in the other case. Only A to Z and a to z have another case; é in either case is `one_of("Éé")`.
/// A rule that `part` calls stays as it is.
///
/// ```
/// use bannelgo::grammar::{call, either_case, literal, range, sequence, Grammar};
///
/// let unit = either_case(sequence([literal("kW"), call("Hour")]));
/// let grammar = Grammar::builder().rule("Unit", unit).rule("Hour", literal("h")).build()?;
/// assert!(grammar.read("KWh")?.is_whole());
/// assert!(grammar.read("kwh")?.is_whole());
/// assert!(!grammar.read("KWH")?.is_whole()); // Hour has only the small letter
///
/// let grammar = Grammar::builder().rule("Hex", either_case(range(b'a', b'f'))).build()?;
/// assert!(grammar.read("C")?.is_whole());
/// # Ok::<(), Box<dyn std::error::Error>>(())
/// ```
pub fn either_case(mut part: Expr) -> Expr {
    for node in &mut part.parts {
        if let Part::Range { fold, .. } = node {
            *fold = true;
        }
    }
    part
}

/// A call of the rule with this name.
///
/// ```
/// use bannelgo::grammar::{call, literal, optional, sequence, Grammar};
///
/// // A call has a row in the tree and a record, and a rule may call itself behind what it consumed.
/// let brackets = sequence([literal("("), optional(call("Brackets")), literal(")")]);
/// let grammar = Grammar::builder().rule("Brackets", brackets).build()?;
/// assert!(grammar.read("((()))")?.is_whole());
/// # Ok::<(), Box<dyn std::error::Error>>(())
/// ```
pub fn call(rule: impl Into<String>) -> Expr {
    Expr::leaf(Part::Call(rule.into()))
}

/// All parts, one after the other. No part at all matches nothing long.
///
/// ```
/// use bannelgo::grammar::{literal, range, sequence, Grammar};
///
/// let degrees = sequence([range(b'0', b'9'), literal("°C")]);
/// let grammar = Grammar::builder().rule("Degrees", degrees).build()?;
/// assert!(grammar.read("7°C")?.is_whole());
/// # Ok::<(), Box<dyn std::error::Error>>(())
/// ```
pub fn sequence(parts: impl IntoIterator<Item = Expr>) -> Expr {
    Expr::joined(Part::Then, parts).unwrap_or_else(empty)
}

/// The first part that matches. No part at all never matches.
///
/// Each part adds one to the nesting of those behind it, and the nesting of a reading ends at 4,096: a
/// part that leads back to the rule it stands in goes deepest where it comes first.
///
/// ```
/// use bannelgo::grammar::{choice, literal, Grammar};
///
/// let word = choice([literal("in"), literal("inner")]);
/// let grammar = Grammar::builder().rule("Word", word).build()?;
/// assert_eq!(grammar.read("inner")?.length, 2); // the longer one is not tried
///
/// let word = choice([literal("inner"), literal("in")]);
/// let grammar = Grammar::builder().rule("Word", word).build()?;
/// assert_eq!(grammar.read("inner")?.length, 5);
/// # Ok::<(), Box<dyn std::error::Error>>(())
/// ```
pub fn choice(parts: impl IntoIterator<Item = Expr>) -> Expr {
    Expr::joined(Part::Else, parts).unwrap_or_else(|| not(empty()))
}

/// As often as it matches, also never. What is repeated must consume: the grammar is refused with 6
/// otherwise.
///
/// ```
/// use bannelgo::grammar::{literal, star, Grammar};
///
/// let zeros = star(literal("0"));
/// let grammar = Grammar::builder().rule("Zeros", zeros.clone()).build()?;
/// assert_eq!(grammar.read("0001")?.length, 3);
///
/// let refused = Grammar::builder().rule("Twice", star(zeros)).build().unwrap_err();
/// assert_eq!(refused.to_string(), "rule Twice repeats something that can match without consuming");
/// # Ok::<(), Box<dyn std::error::Error>>(())
/// ```
pub fn star(repeated: Expr) -> Expr {
    Expr::over(Part::Star, repeated)
}

/// Matches nothing long where `unwanted` does not match here, and fails where it does.
///
/// ```
/// use bannelgo::grammar::{any, literal, not, sequence, star, Grammar};
///
/// let line = star(sequence([not(literal("\n")), any()]));
/// let grammar = Grammar::builder().rule("Line", line).build()?;
/// assert_eq!(grammar.read("one\ntwo\n")?.length, 3);
/// # Ok::<(), Box<dyn std::error::Error>>(())
/// ```
pub fn not(unwanted: Expr) -> Expr {
    Expr::over(Part::Not, unwanted)
}

/// So many times, one after the other. It takes the nodes of all of them.
///
/// ```
/// use bannelgo::grammar::{range, times, Grammar};
///
/// let grammar = Grammar::builder().rule("Year", times(4, range(b'0', b'9'))).build()?;
/// assert!(grammar.read("2026")?.is_whole());
/// assert!(!grammar.read("202")?.is_whole());
/// # Ok::<(), Box<dyn std::error::Error>>(())
/// ```
pub fn times(count: usize, part: Expr) -> Expr {
    // More than 1,024 parts are only counted, and each further one adds itself and a joint.
    let written = count.min(MOST_NODES + 1);
    let added = (count - written).saturating_mul(part.nodes.saturating_add(1));
    let mut expr = sequence(std::iter::repeat_n(part, written));
    expr.nodes = expr.nodes.saturating_add(added);
    expr
}

/// At least once: `repeated`, then `star(repeated)`. It takes the nodes of both.
///
/// ```
/// use bannelgo::grammar::{plus, range, Grammar};
///
/// let grammar = Grammar::builder().rule("Number", plus(range(b'0', b'9'))).build()?;
/// assert!(grammar.read("2026")?.is_whole());
/// assert_eq!(grammar.read("")?.to_string(), "none, length 0, examined 1, nesting 2");
/// # Ok::<(), Box<dyn std::error::Error>>(())
/// ```
pub fn plus(repeated: Expr) -> Expr {
    sequence([repeated.clone(), star(repeated)])
}

/// Once, or else nothing long.
///
/// ```
/// use bannelgo::grammar::{literal, optional, range, sequence, Grammar};
///
/// let signed = sequence([optional(literal("-")), range(b'0', b'9')]);
/// let grammar = Grammar::builder().rule("Signed", signed).build()?;
/// assert!(grammar.read("7")?.is_whole());
/// assert!(grammar.read("-7")?.is_whole());
/// # Ok::<(), Box<dyn std::error::Error>>(())
/// ```
pub fn optional(part: Expr) -> Expr {
    choice([part, empty()])
}

/// Matches nothing long where `wanted` matches here, and fails where it does not: `not(not(wanted))`.
///
/// ```
/// use bannelgo::grammar::{and, literal, one_of, sequence, Grammar};
///
/// let word = sequence([literal("kWh"), and(one_of(" \n"))]);
/// let grammar = Grammar::builder().rule("Unit", word).build()?;
/// assert_eq!(grammar.read("kWh of May")?.length, 3); // the space is not part of the match
/// # Ok::<(), Box<dyn std::error::Error>>(())
/// ```
pub fn and(wanted: Expr) -> Expr {
    not(not(wanted))
}
