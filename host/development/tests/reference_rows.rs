//! The rows written apart: cases worked out by hand, and a plain recursion over small grammars.

use bannelgo::Row;
use bannelgo_development::expected::{row, RowFields};
use bannelgo_development::expr::{byte, not, or_else, sequence, star, then, Expr, Grammar};
use bannelgo_development::generate::{small_grammar, some_text, text_of};
use bannelgo_development::reference::pair_map::PairMap;
use bannelgo_development::reference::rows::{rows, word};
use bannelgo_development::rng::Rng;
use Expr::{Any, Call, Empty};

fn rows_of(grammar: &Grammar, text: &[u8], most: usize) -> Option<Vec<Row>> {
    rows(grammar, text, &mut PairMap::default(), most)
}

/// Rule 0 is this body, rule 1 an "a", rule 2 a "b", rule 3 empty, rule 4 = rule 1 then rule 2.
fn expect(body: Expr, text: &str, fields: &[RowFields]) {
    let pair = then(Call(1), Call(2));
    let rules = vec![body, byte(b'a'), byte(b'b'), Empty, pair];
    let grammar = Grammar { start: 0, rules };
    let expected: Vec<Row> = fields.iter().copied().map(row).collect();
    let text = text.as_bytes();
    assert_eq!(rows_of(&grammar, text, 100).as_ref(), Some(&expected));
    assert_eq!(rows_of(&grammar, text, expected.len()), Some(expected));
    if let Some(fewer) = fields.len().checked_sub(1) {
        assert_eq!(rows_of(&grammar, text, fewer), None);
    }
}

#[test]
fn parents_first_and_left_to_right() {
    let inside = [(0, 0, 0, 2), (4, 1, 0, 2), (1, 2, 0, 1), (2, 2, 1, 1)];
    expect(Call(4), "ab", &inside);
    let empty = [(0, 0, 0, 0), (3, 1, 0, 0), (3, 1, 0, 0)];
    expect(then(Call(3), Call(3)), "", &empty);
    expect(Any, "a", &[(0, 0, 0, 1)]);
    expect(Call(1), "b", &[]);
    expect(Call(1), "", &[]);
}

#[test]
fn what_failed_gives_no_row() {
    let last = (2, 1, 1, 1);
    let second = or_else(Call(4), then(Call(1), Call(1)));
    expect(second, "aa", &[(0, 0, 0, 2), (1, 1, 0, 1), (1, 1, 1, 1)]);
    let rounds = star(then(Call(1), Call(2)));
    let first_round = [(0, 0, 0, 2), (1, 1, 0, 1), last];
    expect(rounds, "aba", &first_round);
    let looks = sequence([not(Call(2)), not(not(Call(1))), Any, Call(2)]);
    expect(looks, "ab", &[(0, 0, 0, 2), last]);
    let fails = then(Call(1), not(Call(2)));
    expect(fails.clone(), "ab", &[]);
    expect(
        or_else(fails, then(Any, Call(2))),
        "ab",
        &[(0, 0, 0, 2), last],
    );
}

#[test]
fn fields_lie_where_the_paper_says() {
    assert_eq!(word(&row((1, 0, 0, 0))), 1 << 56);
    assert_eq!(word(&row((0, 1, 0, 0))), 1 << 32);
    assert_eq!(word(&row((0, 0, 1, 0))), 1 << 16);
    assert_eq!(word(&row((0, 0, 0, 1))), 1);
    let most = row((63, 4_095, 65_535, 65_535));
    assert_eq!(word(&most), 0x3F00_0FFF_FFFF_FFFF);
}

#[test]
fn rows_are_those_of_a_plain_recursion() {
    let rng = &mut Rng::new(2_101);
    let (mut some, mut none, mut many) = (0, 0, 0);
    for round in 0..30_000 {
        let grammar = small_grammar(rng);
        let text = match round % 2 {
            0 => text_of(rng, &grammar, 12),
            _ => some_text(rng, 6),
        };
        let mut plain = Plain {
            rules: &grammar.rules,
            text: &text,
            work: 20_000,
        };
        let expected = plain.call(grammar.start, 0, 0);
        if plain.work == 0 {
            many += 1;
            continue;
        }
        let expected = expected.map_or(vec![], |(_, rows)| rows);
        match expected.len() {
            0 => none += 1,
            _ => some += 1,
        }
        let ours = rows_of(&grammar, &text, expected.len());
        assert_eq!(ours, Some(expected), "{grammar:?}, {text:?}");
    }
    assert!(
        some > 10_000 && none > 5_000 && many < 1_000,
        "{some}, {none}, {many}"
    );
}

/// Each evaluation gives the end of its match and the rows in it.
struct Plain<'a> {
    rules: &'a [Expr],
    text: &'a [u8],
    /// How many evaluations may be made; the answer does not count where this comes to 0.
    work: usize,
}

type Matched = Option<(usize, Vec<Row>)>;

impl Plain<'_> {
    fn call(&mut self, rule: u8, start: usize, depth: usize) -> Matched {
        let body = &self.rules[usize::from(rule)];
        let (end, inside) = self.matched(body, start, depth + 1)?;
        let own = row((usize::from(rule), depth, start, end - start));
        Some((end, [vec![own], inside].concat()))
    }

    fn matched(&mut self, expr: &Expr, at: usize, depth: usize) -> Matched {
        self.work = self.work.checked_sub(1)?;
        let byte = self.text.get(at).copied();
        match expr {
            Empty => Some((at, vec![])),
            Any => {
                let chunk = self.text[at..].utf8_chunks().next()?;
                let first = chunk.valid().chars().next();
                Some((at + first.map_or(1, char::len_utf8), vec![]))
            }
            Expr::Bytes(low, high) => {
                let fits = byte.is_some_and(|byte| (*low..=*high).contains(&byte));
                fits.then_some((at + 1, vec![]))
            }
            Expr::Folded(low, high) => {
                let same = |byte: u8| (*low..=*high).any(|one| one.eq_ignore_ascii_case(&byte));
                byte.is_some_and(same).then_some((at + 1, vec![]))
            }
            Expr::Then(a, b) => {
                let (middle, first) = self.matched(a, at, depth)?;
                let (end, second) = self.matched(b, middle, depth)?;
                Some((end, [first, second].concat()))
            }
            Expr::Else(a, b) => match self.matched(a, at, depth) {
                None => self.matched(b, at, depth),
                matched => matched,
            },
            Expr::Star(a) => match self.matched(a, at, depth) {
                None => Some((at, vec![])),
                Some((next, first)) => {
                    let (end, others) = self.matched(expr, next, depth)?;
                    Some((end, [first, others].concat()))
                }
            },
            Expr::Not(a) => match self.matched(a, at, depth) {
                None => Some((at, vec![])),
                Some(_) => None,
            },
            Call(rule) => self.call(*rule, at, depth),
        }
    }
}
