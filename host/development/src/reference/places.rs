//! Where an image fails a question: what a message about it must name.

use super::outcomes::{self, of_expr, Outcomes};
use super::rings::leads_to;
use super::words::{self, Words};
use super::{header, read_grammar, trees};
use crate::expr::Expr;

/// A word behind the header.
#[derive(Clone, Copy, Debug, PartialEq, Eq)]
pub enum Word {
    Rule(usize),
    Node(usize),
}

/// The first word that isn't lawful, of an image that passes questions 1 to 3.
pub fn unlawful_word(image: &[u8]) -> Option<Word> {
    let header = header::read(image).ok()?;
    words::first_unlawful(image, &header)
}

/// How often a node is a root or a child, of an image that passes questions 1 to 4.
pub fn occurrences(image: &[u8], node: usize) -> Option<usize> {
    let header = header::read(image).ok()?;
    let words = words::read(image, &header)?;
    super::occurrences::times(&words).get(node).copied()
}

/// Whether a node is a star over something that can match nothing long, and whether it is in a rule, of an
/// image that passes questions 1 to 5.
pub fn star_over_nothing(image: &[u8], rule: usize, node: usize) -> Option<bool> {
    let header = header::read(image).ok()?;
    let words = words::read(image, &header)?;
    let sets = outcomes::of_rules(&trees::grow(&words));
    let star_over_zero = match trees::tree(&words, node) {
        Expr::Star(body) => of_expr(&body, &sets).zero,
        _ => false,
    };
    Some(star_over_zero && in_rule(&words, rule, node))
}

fn in_rule(words: &Words, rule: usize, node: usize) -> bool {
    let mut below = vec![words.roots[rule]];
    while let Some(next) = below.pop() {
        if next == node {
            return true;
        }
        below.extend(words.nodes[next].children());
    }
    false
}

/// Whether each of these rules leads to the next and the last to the first, and no ring is shorter, of an
/// image that passes questions 1 to 5.
pub fn shortest_ring(image: &[u8], rules: &[usize]) -> bool {
    let Ok(grammar) = read_grammar(image) else {
        return false;
    };
    let sets: Vec<Outcomes> = outcomes::of_rules(&grammar.rules);
    let bodies = grammar.rules.iter();
    let leads: Vec<Vec<usize>> = bodies.map(|body| leads_to(body, &sets)).collect();
    let next = rules.iter().cycle().skip(1);
    let closed = rules
        .iter()
        .zip(next)
        .all(|(rule, next)| leads[*rule].contains(next));
    closed && !rules.is_empty() && fewest_steps_round(&leads) == Some(rules.len())
}

/// The number of rules in a shortest ring: the least number of steps after which a rule is met again.
fn fewest_steps_round(leads: &[Vec<usize>]) -> Option<usize> {
    let mut met: Vec<Vec<bool>> = (0..leads.len())
        .map(|rule| (0..leads.len()).map(|other| other == rule).collect())
        .collect();
    (1..=leads.len()).find(|_| {
        for from in &mut met {
            let mut after = vec![false; leads.len()];
            for rule in (0..leads.len()).filter(|&rule| from[rule]) {
                for &next in &leads[rule] {
                    after[next] = true;
                }
            }
            *from = after;
        }
        (0..leads.len()).any(|rule| met[rule][rule])
    })
}
