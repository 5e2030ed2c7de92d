//! Every small grammar with every short text over two letters, and smaller ones over a letter in both cases and over
//! bytes of characters.

use super::subject::Subject;
use super::tally::Tally;
use bannelgo_development::expr::Expr;
use bannelgo_development::generate::each_grammar;
use bannelgo_development::numbering::Numbering;

/// The leaves besides calls, and the letters of the texts.
struct Over {
    leaves: &'static [Expr],
    letters: &'static [u8],
}

const TWO_LETTERS: Over = Over {
    leaves: &[Expr::Empty, Expr::Any, Expr::Bytes(b'a', b'a')],
    letters: b"ab",
};

const BOTH_CASES: Over = Over {
    leaves: &[Expr::Any, Expr::Bytes(b'a', b'a'), Expr::Folded(b'a', b'a')],
    letters: b"aAb",
};

/// With these bytes there are characters of 2, 3 and 4 bytes, and broken ones. E0, ED, F0 and F4, which each have a
/// range of second bytes of their own, go on with one of 80 and A0 and break off at the other.
const CHARACTERS: Over = Over {
    leaves: &[Expr::Any, Expr::Bytes(0xC3, 0xC3), Expr::Bytes(0x80, 0xBF)],
    letters: b"\x80\xA0\xC3\xE0\xED\xF0\xF4a",
};

/// One rule of at most 6 nodes, texts of at most 4 letters.
pub fn one_rule() -> Tally {
    family("all of 1 rule, up to 6 nodes", 1, 6, &TWO_LETTERS, 4)
}

/// Two rules of at most 6 nodes together, texts of at most 4 letters.
pub fn two_rules() -> Tally {
    family("all of 2 rules, up to 6 nodes", 2, 6, &TWO_LETTERS, 4)
}

/// One rule of at most 5 nodes, texts of at most 4 letters.
pub fn one_rule_in_both_cases() -> Tally {
    family("all of 1 rule, both cases", 1, 5, &BOTH_CASES, 4)
}

/// Two rules of at most 5 nodes together, texts of at most 3 letters.
pub fn two_rules_in_both_cases() -> Tally {
    family("all of 2 rules, both cases", 2, 5, &BOTH_CASES, 3)
}

/// One rule of at most 5 nodes, texts of at most 4 bytes.
pub fn one_rule_over_characters() -> Tally {
    family("all of 1 rule, characters", 1, 5, &CHARACTERS, 4)
}

/// Two rules of at most 5 nodes together, texts of at most 3 bytes.
pub fn two_rules_over_characters() -> Tally {
    family("all of 2 rules, characters", 2, 5, &CHARACTERS, 3)
}

fn family(name: &'static str, rules: usize, nodes: usize, over: &Over, longest: usize) -> Tally {
    let mut tally = Tally::listed(name);
    let texts = texts_and_more(over.letters, longest);
    each_grammar(rules, nodes, over.leaves, &mut |grammar| {
        let subject = Subject::of(grammar, Numbering::Preorder);
        let texts = if subject.accepted() {
            &texts
        } else {
            &texts[..1]
        };
        for (length, bytes) in texts {
            tally.compare(&subject, &bytes[..*length]);
        }
    });
    tally
}

/// The length of each text over these letters, the shortest first, and its bytes with the first letter behind them.
///
/// That letter is not lent. A reader that takes it for the text's is noticed.
fn texts_and_more(letters: &[u8], longest: usize) -> Vec<(usize, Vec<u8>)> {
    let power = |place: usize| letters.len().pow(place as u32);
    let mut texts = vec![];
    for length in 0..=longest {
        for number in 0..power(length) {
            let text = (0..length).map(|place| letters[number / power(place) % letters.len()]);
            texts.push((length, text.chain([letters[0]]).collect()));
        }
    }
    texts
}
