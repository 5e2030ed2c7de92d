//! From expressions to the bytes of an image. Nodes are numbered rule by rule, each before its parts.

use super::expr::{Expr, Part};

/// The image of rules with these bodies, each name of a call turned into a number. There are at most 64
/// rules and 1,024 nodes.
pub(super) fn image_of(start: usize, bodies: &[&Expr], number: impl Fn(&str) -> usize) -> Vec<u8> {
    let nodes: usize = bodies.iter().map(|body| body.parts.len()).sum();
    let header = 1 << 28 | bodies.len() << 20 | nodes << 8 | start;
    let mut rule_words = vec![];
    let mut node_words = vec![];
    for body in bodies {
        let root = node_words.len();
        rule_words.push(root as u16);
        node_words.extend(words_of(body, root, &number));
    }
    let mut image = (header as u32).to_be_bytes().to_vec();
    image.extend(rule_words.iter().flat_map(|word| word.to_be_bytes()));
    image.extend(node_words.iter().flat_map(|word: &u32| word.to_be_bytes()));
    image
}

/// The words of an expression whose first node has the number `root`.
fn words_of(body: &Expr, root: usize, number: &impl Fn(&str) -> usize) -> Vec<u32> {
    let behind = behind_each(&body.parts);
    let word = |(place, part): (usize, &Part)| {
        let first = root + place + 1;
        let second = || root + behind[place + 1];
        let (kind, a, b) = match part {
            Part::Empty => (0, 0, 0),
            Part::Any => (1, 0, 0),
            Part::Range { low, high, .. } => (2, usize::from(*low), usize::from(*high)),
            Part::Then => (3, first, second()),
            Part::Else => (4, first, second()),
            Part::Star => (5, first, 0),
            Part::Not => (6, first, 0),
            Part::Call(name) => (7, number(name), 0),
        };
        let fold = usize::from(matches!(part, Part::Range { fold: true, .. }));
        (kind << 28 | fold << 24 | a << 12 | b) as u32
    };
    body.parts.iter().enumerate().map(word).collect()
}

/// For each node the place behind it and all its parts.
fn behind_each(parts: &[Part]) -> Vec<usize> {
    let mut behind = vec![0; parts.len()];
    for place in (0..parts.len()).rev() {
        let mut end = place + 1;
        for _ in 0..parts[place].arity() {
            end = behind[end];
        }
        behind[place] = end;
    }
    behind
}
