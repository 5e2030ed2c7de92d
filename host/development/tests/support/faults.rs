//! What a refusal says of an image, held to the reference.

use bannelgo::{check_image, Fault, Refusal};
use bannelgo_development::reference::places::{
    occurrences, shortest_ring, star_over_nothing, unlawful_word, Word,
};

/// Whether an accepted image gets no refusal, and another one its number with what is wrong with it.
pub fn said_rightly(image: &[u8], number: u64) -> bool {
    match check_image(image) {
        Ok(()) => number == 0,
        Err(Refusal::Image {
            number: ours,
            fault: Some(fault),
        }) => u64::from(ours) == number && is_so(image, number, &fault),
        Err(_) => false,
    }
}

pub fn wrongly_said(image: &[u8], number: u64) -> String {
    format!(
        "number {number}, {:?}, of {image:02x?}",
        check_image(image).err()
    )
}

fn is_so(image: &[u8], number: u64, fault: &Fault) -> bool {
    let field = |first: usize, count: usize| {
        let bits =
            (first..first + count).map(|bit| usize::from(image[bit / 8] >> (7 - bit % 8) & 1));
        bits.fold(0, |value, bit| 2 * value + bit)
    };
    let (rules_now, nodes_now) = (|| field(4, 8), || field(12, 12));
    match (number, fault) {
        (1, Fault::Short { bytes }) => *bytes == image.len() && image.len() < 4,
        (1, Fault::Edition { edition }) => usize::from(*edition) == field(0, 4) && *edition != 1,
        (2, Fault::Rules { rules }) => *rules == rules_now() && !(1..=64).contains(rules),
        (2, Fault::Nodes { nodes }) => *nodes == nodes_now() && !(1..=1_024).contains(nodes),
        (2, Fault::Start { start, rules }) => {
            (*start, *rules) == (field(24, 8), rules_now()) && start >= rules
        }
        (3, Fault::Size { bytes, expected }) => {
            let asked = 4 + 2 * rules_now() + 4 * nodes_now();
            (*bytes, *expected) == (image.len(), asked) && bytes != expected
        }
        (4, Fault::RuleWord { rule, why }) => {
            let word = field(32 + 16 * rule, 4);
            let why_so = if word == 0 {
                "it names no node"
            } else {
                ZERO_BITS
            };
            unlawful_word(image) == Some(Word::Rule(*rule)) && *why == why_so
        }
        (4, Fault::NodeWord { node, why }) => {
            let word = 32 + 16 * rules_now() + 32 * node;
            let kind = field(word, 4);
            let [zero, fold] = [(4, 3), (7, 1)].map(|(first, count)| field(word + first, count));
            let [a, b] = [8, 20].map(|first| field(word + first, 12));
            let counts = (rules_now(), nodes_now());
            unlawful_word(image) == Some(Word::Node(*node))
                && node_is_so(why, (kind, [zero, fold], a, b), *node, counts)
        }
        (5, Fault::Occurrences { node, times }) => {
            occurrences(image, *node) == Some(*times) && *times != 1
        }
        (6, Fault::StarBody { rule, node }) => star_over_nothing(image, *rule, *node) == Some(true),
        (7, Fault::Ring { rules }) => shortest_ring(image, rules),
        _ => false,
    }
}

const ZERO_BITS: &str = "its zero bits are not 0";

/// Whether this is wrong with a node's word, by its fields; of two wrong children the first is meant.
fn node_is_so(
    why: &str,
    (kind, [zero, fold], a, b): (usize, [usize; 2], usize, usize),
    node: usize,
    (rules, nodes): (usize, usize),
) -> bool {
    let children = match kind {
        3 | 4 => vec![a, b],
        5 | 6 => vec![a],
        _ => vec![],
    };
    let wrong = |child: &usize| !(node + 1..nodes).contains(child);
    let first_wrong = children.into_iter().find(wrong);
    match why {
        ZERO_BITS => zero != 0,
        "it has the fold bit and is no byte range" => fold != 0 && kind != 2,
        "its kind is above 7" => kind > 7,
        "a field that its kind does not use is not 0" => match kind {
            0 | 1 => a != 0 || b != 0,
            5..=7 => b != 0,
            _ => false,
        },
        "its range ends below its beginning" => kind == 2 && a > b,
        "its range ends above 255" => kind == 2 && b > 255,
        "it calls a rule that is not there" => kind == 7 && a >= rules,
        "a child's number is not above its own" => first_wrong.is_some_and(|child| child <= node),
        "a child is a node that is not there" => first_wrong.is_some_and(|child| child >= nodes),
        _ => false,
    }
}
