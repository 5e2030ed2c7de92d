//! The header, and the questions 1 to 3.

use super::top_bits::TopBits;
use super::Number;

pub struct Header {
    pub rules: usize,
    pub nodes: usize,
    pub start: u8,
}

impl Header {
    pub fn node_words_begin(&self) -> usize {
        4 + 2 * self.rules
    }

    fn image_length(&self) -> usize {
        self.node_words_begin() + 4 * self.nodes
    }
}

pub fn read(image: &[u8]) -> Result<Header, Number> {
    let Some(first) = image.first_chunk::<4>() else {
        return Err(1);
    };
    let mut bits = TopBits::of_four_bytes(*first);
    if bits.take(4) != 1 {
        return Err(1);
    }
    let header = Header {
        rules: bits.take(8),
        nodes: bits.take(12),
        start: bits.take(8) as u8,
    };
    let rules_fit = (1..=64).contains(&header.rules);
    let nodes_fit = (1..=1024).contains(&header.nodes);
    if !rules_fit || !nodes_fit || usize::from(header.start) >= header.rules {
        return Err(2);
    }
    if image.len() != header.image_length() {
        return Err(3);
    }
    Ok(header)
}
