//! From a grammar to its image: each tree node gets a number, above its parent's, and a word.

use crate::expr::{Expr, Grammar};
use crate::image_words::{node_word, ImageWords, FOLD};
use crate::rng::Rng;

/// The order in which the nodes get their numbers. All of them put children above parents.
#[derive(Clone, Copy, Debug, PartialEq, Eq)]
pub enum Numbering {
    /// Rule by rule, each node before its children, all of A's part before B's.
    Preorder,
    /// Like preorder, with the last rule's nodes first and rule 0's nodes last.
    LastRuleFirst,
    /// One node of each rule in turn, so that the rules' nodes lie between one another.
    Interleaved,
    /// Any lawful order, drawn with this seed.
    Shuffled(u64),
}

impl Numbering {
    /// One of the orders, drawn.
    pub fn any(rng: &mut Rng) -> Numbering {
        match rng.below(4) {
            0 => Numbering::Preorder,
            1 => Numbering::LastRuleFirst,
            2 => Numbering::Interleaved,
            _ => Numbering::Shuffled(rng.draw()),
        }
    }
}

/// The image of a grammar as bytes.
pub fn image_of(grammar: &Grammar, numbering: Numbering) -> Vec<u8> {
    words_of(grammar, numbering).to_bytes()
}

/// The image of a grammar as words.
pub fn words_of(grammar: &Grammar, numbering: Numbering) -> ImageWords {
    let flat = Flat::from(grammar);
    let order = flat.order(numbering);
    let mut number_of = vec![0; order.len()];
    for (number, &part) in order.iter().enumerate() {
        number_of[part] = number as u32;
    }
    let rule_words = flat.roots.iter().map(|&root| number_of[root] as u16);
    let node_words = order.iter().map(|&part| flat.parts[part].word(&number_of));
    ImageWords::new(
        u32::from(grammar.start),
        rule_words.collect(),
        node_words.collect(),
    )
}

/// A field of a node word: a plain number, or a child given by its place in `Flat::parts`.
#[derive(Clone, Copy)]
enum Field {
    Number(u8),
    Child(usize),
}

#[derive(Clone, Copy)]
struct Part {
    kind: u32,
    fold: bool,
    a: Field,
    b: Field,
}

/// All nodes of a grammar in preorder, rule by rule, and the place of each rule's root.
struct Flat {
    parts: Vec<Part>,
    roots: Vec<usize>,
}

impl Field {
    fn value(self, number_of: &[u32]) -> u32 {
        match self {
            Field::Number(number) => u32::from(number),
            Field::Child(place) => number_of[place],
        }
    }
}

impl Part {
    fn word(&self, number_of: &[u32]) -> u32 {
        let fold = if self.fold { FOLD } else { 0 };
        fold | node_word(self.kind, self.a.value(number_of), self.b.value(number_of))
    }

    fn children(&self) -> impl Iterator<Item = usize> {
        [self.a, self.b]
            .into_iter()
            .filter_map(|field| match field {
                Field::Number(_) => None,
                Field::Child(place) => Some(place),
            })
    }
}

impl Flat {
    fn from(grammar: &Grammar) -> Flat {
        let mut flat = Flat {
            parts: vec![],
            roots: vec![],
        };
        for body in &grammar.rules {
            let root = flat.add(body);
            flat.roots.push(root);
        }
        flat
    }

    /// Appends a tree and returns the place of its root.
    fn add(&mut self, expr: &Expr) -> usize {
        const ZERO: Field = Field::Number(0);
        let here = self.parts.len();
        self.parts.push(Part {
            kind: 0,
            fold: false,
            a: ZERO,
            b: ZERO,
        });
        let (kind, a, b) = match expr {
            Expr::Empty => (0, ZERO, ZERO),
            Expr::Any => (1, ZERO, ZERO),
            Expr::Bytes(low, high) | Expr::Folded(low, high) => {
                (2, Field::Number(*low), Field::Number(*high))
            }
            Expr::Then(a, b) => (3, Field::Child(self.add(a)), Field::Child(self.add(b))),
            Expr::Else(a, b) => (4, Field::Child(self.add(a)), Field::Child(self.add(b))),
            Expr::Star(a) => (5, Field::Child(self.add(a)), ZERO),
            Expr::Not(a) => (6, Field::Child(self.add(a)), ZERO),
            Expr::Call(rule) => (7, Field::Number(*rule), ZERO),
        };
        let fold = matches!(expr, Expr::Folded(..));
        self.parts[here] = Part { kind, fold, a, b };
        here
    }

    /// The places in `parts`, in the order of their node numbers.
    fn order(&self, numbering: Numbering) -> Vec<usize> {
        match numbering {
            Numbering::Preorder => (0..self.parts.len()).collect(),
            Numbering::LastRuleFirst => self.rule_ranges().rev().flatten().collect(),
            Numbering::Interleaved => self.interleaved(),
            Numbering::Shuffled(seed) => self.shuffled(&mut Rng::new(seed)),
        }
    }

    /// The places of each rule's nodes.
    fn rule_ranges(&self) -> impl DoubleEndedIterator<Item = std::ops::Range<usize>> + '_ {
        (0..self.roots.len()).map(|rule| {
            let end = self.roots.get(rule + 1).copied();
            self.roots[rule]..end.unwrap_or(self.parts.len())
        })
    }

    fn interleaved(&self) -> Vec<usize> {
        let mut ranges: Vec<_> = self.rule_ranges().collect();
        let mut order = vec![];
        while order.len() < self.parts.len() {
            order.extend(ranges.iter_mut().filter_map(|range| range.next()));
        }
        order
    }

    /// Draws again and again a node whose parent already has its number.
    fn shuffled(&self, rng: &mut Rng) -> Vec<usize> {
        let mut ready = self.roots.clone();
        let mut order = vec![];
        while !ready.is_empty() {
            let place = ready.swap_remove(rng.below(ready.len()));
            ready.extend(self.parts[place].children());
            order.push(place);
        }
        order
    }
}
