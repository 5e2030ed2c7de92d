//! Every image of a small kind: words with all small fields, and trees of all shapes.

use super::tally::Tally;
use bannelgo_development::expr::Expr;
use bannelgo_development::generate::each_grammar;
use bannelgo_development::image_words::{node_word, ImageWords, FOLD};
use bannelgo_development::numbering::{image_of, Numbering};

/// One rule and one node, with lawful and unlawful values in every field.
pub fn one_node() -> Tally {
    let mut tally = Tally::listed("1 rule, 1 node, any fields");
    let fields = [0, 1, 2, 255, 256, 4095];
    for (root, start) in [
        (0, 0),
        (0, 1),
        (1, 0),
        (0x0FFF, 0),
        (0x1000, 0),
        (0x8000, 0),
    ] {
        for kind in 0..16 {
            for (a, b) in pairs(&fields, &fields) {
                for zero_and_fold in 0..16 {
                    let word = node_word(kind, a, b) | zero_and_fold << 24;
                    tally.compare(&ImageWords::new(start, vec![root], vec![word]).to_bytes());
                }
            }
        }
    }
    tally
}

/// Two nodes with kinds 0 to 9 and fields 0 to 2, ranges also with the fold bit, under one rule and under two.
pub fn two_nodes() -> Tally {
    let mut tally = Tally::listed("1 or 2 rules, 2 nodes");
    let fields = [0, 1, 2];
    let mut words = vec![];
    for kind in 0..10 {
        words.extend(pairs(&fields, &fields).map(|(a, b)| node_word(kind, a, b)));
    }
    words.extend(pairs(&fields, &fields).map(|(a, b)| node_word(2, a, b) | FOLD));
    let roots: [&[u16]; 7] = [&[0], &[1], &[2], &[0, 0], &[0, 1], &[1, 0], &[1, 1]];
    for roots in roots {
        for (first, second) in pairs(&words, &words) {
            let start = roots.len() as u32 - 1;
            tally.compare(&ImageWords::new(start, roots.to_vec(), vec![first, second]).to_bytes());
        }
    }
    tally
}

/// All lawful words of three nodes under two rules, and of four nodes under one rule.
pub fn lawful_words() -> Tally {
    let mut tally = Tally::listed("3 or 4 nodes, lawful words");
    for roots in pairs(&[0u16, 1, 2], &[0u16, 1, 2]) {
        each_lawful(3, 2, &mut vec![], &mut |nodes| {
            tally.compare(&ImageWords::new(1, vec![roots.0, roots.1], nodes.to_vec()).to_bytes());
        });
    }
    each_lawful(4, 1, &mut vec![], &mut |nodes| {
        tally.compare(&ImageWords::new(0, vec![0], nodes.to_vec()).to_bytes());
    });
    tally
}

/// The leaves of small grammars, besides calls.
pub const LEAVES: [Expr; 2] = [Expr::Empty, Expr::Any];

/// Every grammar of 1, 2 or 3 rules with few nodes in all.
pub fn small_grammars() -> Tally {
    let mut tally = Tally::listed("all grammars of 1 to 3 rules");
    for (rules, nodes) in [(1, 7), (2, 6), (3, 6)] {
        each_grammar(rules, nodes, &LEAVES, &mut |grammar| {
            tally.compare(&image_of(grammar, Numbering::Preorder));
        });
    }
    tally
}

/// Gives `visit` every list of lawful node words; the only range is one with the fold bit.
fn each_lawful(nodes: u32, rules: u32, words: &mut Vec<u32>, visit: &mut impl FnMut(&[u32])) {
    let number = words.len() as u32;
    if number == nodes {
        return visit(words);
    }
    let letter = node_word(2, 0x61, 0x61) | FOLD;
    let mut choices = vec![node_word(0, 0, 0), node_word(1, 0, 0), letter];
    choices.extend((0..rules).map(|rule| node_word(7, rule, 0)));
    for a in number + 1..nodes {
        choices.extend([node_word(5, a, 0), node_word(6, a, 0)]);
        for b in number + 1..nodes {
            choices.extend([node_word(3, a, b), node_word(4, a, b)]);
        }
    }
    for word in choices {
        words.push(word);
        each_lawful(nodes, rules, words, visit);
        words.pop();
    }
}

fn pairs<'a, T: Copy>(left: &'a [T], right: &'a [T]) -> impl Iterator<Item = (T, T)> + 'a {
    left.iter()
        .flat_map(move |&a| right.iter().map(move |&b| (a, b)))
}
