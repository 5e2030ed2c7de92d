//! What is wrong with a refused image. The number comes from the proved library; this says where.

use super::outcomes::{outcome_sets, ZERO};
use super::ring::shortest_ring;
use super::words::{Header, NodeWord, Words};
use crate::grammar::{MOST_NODES, MOST_RULES};
use crate::refusal::{counted, grouped};
use std::fmt;

/// What is wrong with an image. Rules and nodes are given by their numbers, from 0 on.
///
/// ```
/// use bannelgo::{check_image, Fault, Refusal};
///
/// // Edition 1, one rule, one node, start 0; rule 0 is node 0, which calls rule 0.
/// let image = [0x10, 0x10, 0x01, 0x00, 0x00, 0x00, 0x70, 0x00, 0x00, 0x00];
/// let Err(Refusal::Image { number, fault }) = check_image(&image) else {
///     panic!("a rule that only calls itself is refused");
/// };
/// assert_eq!(number, 7);
/// assert_eq!(fault, Some(Fault::Ring { rules: vec![0] }));
/// ```
#[derive(Clone, Debug, PartialEq, Eq)]
#[non_exhaustive]
pub enum Fault {
    /// Number 1: the header's 4 bytes are not there.
    Short {
        /// The image's length.
        bytes: usize,
    },
    /// Number 1: the edition is not 1.
    Edition {
        /// The edition that the header has.
        edition: u8,
    },
    /// Number 2: there are not 1 to 64 rules.
    Rules {
        /// The rules that the header has.
        rules: usize,
    },
    /// Number 2: there are not 1 to 1,024 nodes.
    Nodes {
        /// The nodes that the header has.
        nodes: usize,
    },
    /// Number 2: the start rule is none of the rules.
    Start {
        /// The start rule that the header has.
        start: usize,
        /// The rules that the header has.
        rules: usize,
    },
    /// Number 3: the length is not the one that the header asks for.
    Size {
        /// The image's length.
        bytes: usize,
        /// The length that the header asks for.
        expected: usize,
    },
    /// Number 4: a rule's word is not lawful.
    RuleWord {
        /// The rule.
        rule: usize,
        /// What is wrong with it.
        why: &'static str,
    },
    /// Number 4: a node's word is not lawful.
    NodeWord {
        /// The node.
        node: usize,
        /// What is wrong with it.
        why: &'static str,
    },
    /// Number 5: a node is not just once a root or a child.
    Occurrences {
        /// The node.
        node: usize,
        /// How often it is one.
        times: usize,
    },
    /// Number 6: a star's body can match without consuming.
    StarBody {
        /// The rule that the star is in.
        rule: usize,
        /// The star.
        node: usize,
    },
    /// Number 7: each of these rules calls the next without consuming, and the last the first.
    Ring {
        /// The rules; one alone calls itself.
        rules: Vec<usize>,
    },
}

impl Fault {
    /// The first fault of an image that got this number.
    pub(super) fn found(number: u8, image: &[u8]) -> Option<Fault> {
        let Some(header) = Header::of(image) else {
            let bytes = image.len();
            return Some(Fault::Short { bytes });
        };
        if number <= 3 {
            return of_header(&header, image.len());
        }
        let words = Words::of(image, &header)?;
        match number {
            4 => unlawful_word(&header, &words),
            5 => not_once(&words),
            6 => star_body(&words),
            7 => shortest_ring(&words, &outcome_sets(&words)).map(|rules| Fault::Ring { rules }),
            _ => None,
        }
    }
}

fn of_header(header: &Header, bytes: usize) -> Option<Fault> {
    let Header {
        edition,
        rules,
        nodes,
        start,
    } = *header;
    let expected = header.image_bytes();
    if edition != 1 {
        Some(Fault::Edition { edition })
    } else if !(1..=MOST_RULES).contains(&rules) {
        Some(Fault::Rules { rules })
    } else if !(1..=MOST_NODES).contains(&nodes) {
        Some(Fault::Nodes { nodes })
    } else if start >= rules {
        Some(Fault::Start { start, rules })
    } else if bytes != expected {
        Some(Fault::Size { bytes, expected })
    } else {
        None
    }
}

const ZERO_BITS: &str = "its zero bits are not 0";

fn unlawful_word(header: &Header, words: &Words) -> Option<Fault> {
    let unlawful = |&word: &u16| usize::from(word) >= header.nodes;
    if let Some(rule) = words.rules.iter().position(unlawful) {
        let why = match words.rules[rule] >> 12 {
            0 => "it names no node",
            _ => ZERO_BITS,
        };
        return Some(Fault::RuleWord { rule, why });
    }
    let mut nodes = words.nodes.iter().enumerate();
    nodes.find_map(|(node, word)| {
        let why = why_unlawful(header, node, word)?;
        Some(Fault::NodeWord { node, why })
    })
}

fn why_unlawful(header: &Header, node: usize, word: &NodeWord) -> Option<&'static str> {
    let unused = match word.kind {
        0 | 1 => word.a != 0 || word.b != 0,
        5..=7 => word.b != 0,
        _ => false,
    };
    match word.kind {
        _ if word.zero != 0 => Some(ZERO_BITS),
        _ if word.fold && word.kind != 2 => Some("it has the fold bit and is no byte range"),
        8.. => Some("its kind is above 7"),
        _ if unused => Some("a field that its kind does not use is not 0"),
        2 if word.a > word.b => Some("its range ends below its beginning"),
        2 if word.b > 255 => Some("its range ends above 255"),
        7 if word.a >= header.rules => Some("it calls a rule that is not there"),
        _ => word
            .children()
            .find_map(|child| why_no_child(header, node, child)),
    }
}

/// Why a node cannot have this child.
fn why_no_child(header: &Header, node: usize, child: usize) -> Option<&'static str> {
    if child <= node {
        Some("a child's number is not above its own")
    } else if child >= header.nodes {
        Some("a child is a node that is not there")
    } else {
        None
    }
}

fn not_once(words: &Words) -> Option<Fault> {
    let mut times = vec![0; words.nodes.len()];
    let roots = words.rules.iter().map(|&root| usize::from(root));
    let children = words.nodes.iter().flat_map(NodeWord::children);
    for node in roots.chain(children) {
        *times.get_mut(node)? += 1;
    }
    let node = times.iter().position(|&times| times != 1)?;
    let times = times[node];
    Some(Fault::Occurrences { node, times })
}

fn star_body(words: &Words) -> Option<Fault> {
    let sets = outcome_sets(words);
    let empties = |word: &NodeWord| word.kind == 5 && sets[word.a] & ZERO != 0;
    let node = words.nodes.iter().position(empties)?;
    let rule = rule_of(words, node)?;
    Some(Fault::StarBody { rule, node })
}

/// The rule that a node belongs to, of an image that passes question 5.
fn rule_of(words: &Words, node: usize) -> Option<usize> {
    let mut top = node;
    loop {
        let root = words
            .rules
            .iter()
            .position(|&root| usize::from(root) == top);
        if root.is_some() {
            return root;
        }
        let is_parent = |word: &NodeWord| word.children().any(|child| child == top);
        top = words.nodes.iter().position(is_parent)?;
    }
}

impl fmt::Display for Fault {
    fn fmt(&self, out: &mut fmt::Formatter<'_>) -> fmt::Result {
        match self {
            Fault::Short { bytes } => {
                let bytes = counted(*bytes, "byte");
                write!(out, "the image has {bytes}, fewer than the 4 of its header")
            }
            Fault::Edition { edition } => {
                write!(
                    out,
                    "the image is of edition {edition} and not of edition 1"
                )
            }
            Fault::Rules { rules } => write!(out, "the image has {rules} rules and not 1 to 64"),
            Fault::Nodes { nodes } => {
                let nodes = counted(*nodes, "node");
                write!(out, "the image has {nodes} and not 1 to 1,024")
            }
            Fault::Start { start, rules } => {
                let rules = counted(*rules, "rule");
                write!(out, "the image has {rules} and starts with rule {start}")
            }
            Fault::Size { bytes, expected } => write!(
                out,
                "the image has {}, and its header asks for {}",
                counted(*bytes, "byte"),
                grouped(*expected)
            ),
            Fault::RuleWord { rule, why } => {
                write!(out, "the word of rule {rule} is not lawful: {why}")
            }
            Fault::NodeWord { node, why } => {
                write!(out, "the word of node {node} is not lawful: {why}")
            }
            Fault::Occurrences { node, times } => write!(
                out,
                "node {node} is {} a root or a child and not once",
                counted(*times, "time")
            ),
            Fault::StarBody { rule, .. } => out.write_str(&star_in_words(&format!("rule {rule}"))),
            Fault::Ring { rules } => {
                let names: Vec<String> = rules.iter().map(|rule| format!("rule {rule}")).collect();
                out.write_str(&ring_in_words(&names))
            }
        }
    }
}

/// A star that can match nothing long, by the name of its rule.
pub(crate) fn star_in_words(rule: &str) -> String {
    format!("{rule} repeats something that can match without consuming")
}

/// A ring in words, by the names of its rules.
pub(crate) fn ring_in_words(names: &[String]) -> String {
    match names {
        [] => ring_in_words(&["a rule".to_string()]),
        [alone] => format!("{alone} is called from itself without consuming"),
        [first, others @ ..] => {
            let first = ring_in_words(std::slice::from_ref(first));
            format!("{first}, through {}", others.join(" and "))
        }
    }
}
