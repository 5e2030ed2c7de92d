//! The words of a grammar image before they are packed. Any field may be given an unlawful value.

/// The fields of an image. Each is cut to its width when it is packed.
#[derive(Clone, Debug, PartialEq, Eq)]
pub struct ImageWords {
    pub edition: u32,
    pub rules: u32,
    pub nodes: u32,
    pub start: u32,
    pub rule_words: Vec<u16>,
    pub node_words: Vec<u32>,
}

/// The fold bit of a node's word.
pub const FOLD: u32 = 1 << 24;

/// A node's word without its fold bit: kind 4, zero 3, fold 1, A 12, B 12.
pub fn node_word(kind: u32, a: u32, b: u32) -> u32 {
    (kind & 0xF) << 28 | (a & 0xFFF) << 12 | (b & 0xFFF)
}

impl ImageWords {
    /// Edition 1, with the counts that belong to these words.
    pub fn new(start: u32, rule_words: Vec<u16>, node_words: Vec<u32>) -> ImageWords {
        ImageWords {
            edition: 1,
            rules: rule_words.len() as u32,
            nodes: node_words.len() as u32,
            start,
            rule_words,
            node_words,
        }
    }

    /// The header's word: edition 4, rules 8, nodes 12, start rule 8.
    pub fn header(&self) -> u32 {
        (self.edition & 0xF) << 28
            | (self.rules & 0xFF) << 20
            | (self.nodes & 0xFFF) << 8
            | (self.start & 0xFF)
    }

    pub fn to_bytes(&self) -> Vec<u8> {
        let mut bytes = self.header().to_be_bytes().to_vec();
        bytes.extend(self.rule_words.iter().flat_map(|word| word.to_be_bytes()));
        bytes.extend(self.node_words.iter().flat_map(|word| word.to_be_bytes()));
        bytes
    }
}
