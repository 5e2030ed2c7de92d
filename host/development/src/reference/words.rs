//! Rule words and node words, and question 4: is every word lawful?

use super::header::Header;
use super::places::Word;
use super::top_bits::TopBits;

/// A lawful node word. `usize` fields are child nodes.
pub enum NodeWord {
    Empty,
    Any,
    Bytes(u8, u8),
    Folded(u8, u8),
    Then(usize, usize),
    Else(usize, usize),
    Star(usize),
    Not(usize),
    Call(u8),
}

/// The root of each rule and the word of each node, all of them lawful.
pub struct Words {
    pub roots: Vec<usize>,
    pub nodes: Vec<NodeWord>,
}

impl NodeWord {
    /// A call names a rule, which is no child.
    pub fn children(&self) -> Vec<usize> {
        match *self {
            NodeWord::Then(a, b) | NodeWord::Else(a, b) => vec![a, b],
            NodeWord::Star(a) | NodeWord::Not(a) => vec![a],
            NodeWord::Empty
            | NodeWord::Any
            | NodeWord::Bytes(..)
            | NodeWord::Folded(..)
            | NodeWord::Call(_) => vec![],
        }
    }
}

/// The first word that isn't lawful.
pub fn first_unlawful(image: &[u8], header: &Header) -> Option<Word> {
    let (front, node_bytes) = image.split_at(header.node_words_begin());
    let mut roots = front[4..].chunks_exact(2);
    let mut nodes = node_bytes.chunks_exact(4).enumerate();
    let root = roots.position(|bytes| read_root([bytes[0], bytes[1]], header).is_none());
    let node = nodes.position(|(number, bytes)| {
        read_node([bytes[0], bytes[1], bytes[2], bytes[3]], number, header).is_none()
    });
    root.map(Word::Rule).or(node.map(Word::Node))
}

/// Reads all words; nothing where one of them isn't lawful.
pub fn read(image: &[u8], header: &Header) -> Option<Words> {
    let (front, node_bytes) = image.split_at(header.node_words_begin());
    let roots = front[4..].chunks_exact(2);
    let nodes = node_bytes.chunks_exact(4).enumerate();
    Some(Words {
        roots: roots
            .map(|bytes| read_root([bytes[0], bytes[1]], header))
            .collect::<Option<_>>()?,
        nodes: nodes
            .map(|(number, bytes)| {
                read_node([bytes[0], bytes[1], bytes[2], bytes[3]], number, header)
            })
            .collect::<Option<_>>()?,
    })
}

fn read_root(bytes: [u8; 2], header: &Header) -> Option<usize> {
    let mut bits = TopBits::of_two_bytes(bytes);
    let zero = bits.take(4);
    let root = bits.take(12);
    (zero == 0 && root < header.nodes).then_some(root)
}

fn read_node(bytes: [u8; 4], number: usize, header: &Header) -> Option<NodeWord> {
    let mut bits = TopBits::of_four_bytes(bytes);
    let kind = bits.take(4);
    let zero = bits.take(3);
    let fold = bits.take(1);
    let a = bits.take(12);
    let b = bits.take(12);
    let is_child = |field: usize| number < field && field < header.nodes;
    if zero != 0 {
        return None;
    }
    // "Question 4 allows the bit in kind 2 only."
    match (kind, fold) {
        (0, 0) if a == 0 && b == 0 => Some(NodeWord::Empty),
        (1, 0) if a == 0 && b == 0 => Some(NodeWord::Any),
        (2, 0) if a <= b && b <= 255 => Some(NodeWord::Bytes(a as u8, b as u8)),
        (2, 1) if a <= b && b <= 255 => Some(NodeWord::Folded(a as u8, b as u8)),
        (3, 0) if is_child(a) && is_child(b) => Some(NodeWord::Then(a, b)),
        (4, 0) if is_child(a) && is_child(b) => Some(NodeWord::Else(a, b)),
        (5, 0) if is_child(a) && b == 0 => Some(NodeWord::Star(a)),
        (6, 0) if is_child(a) && b == 0 => Some(NodeWord::Not(a)),
        (7, 0) if a < header.rules && b == 0 => Some(NodeWord::Call(a as u8)),
        _ => None,
    }
}
