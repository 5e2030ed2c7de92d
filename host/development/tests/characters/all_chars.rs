//! By the list of all characters: which bytes are one, and which some character begins with.

use bannelgo_development::reference::characters::Looked;

/// A tree of the bytes of all characters.
pub struct AllChars {
    /// What each byte leads to; the first is for the first byte of a text.
    nodes: Vec<[Next; 256]>,
}

/// Where the bytes up to here lead.
#[derive(Clone, Copy)]
enum Next {
    /// No character begins with them.
    Nowhere,
    /// They are a character.
    Character,
    /// A character begins with them; the node for its next byte.
    Node(u32),
}

const LEAF: [Next; 256] = [Next::Nowhere; 256];

impl AllChars {
    pub fn new() -> AllChars {
        let mut all = AllChars { nodes: vec![LEAF] };
        for char in '\0'..=char::MAX {
            all.add(char.encode_utf8(&mut [0; 4]).as_bytes());
        }
        all
    }

    fn add(&mut self, bytes: &[u8]) {
        let (last, front) = bytes.split_last().expect("a character has a byte");
        let mut node = 0;
        for &byte in front {
            let new = self.nodes.len();
            let next = &mut self.nodes[node][usize::from(byte)];
            node = match next {
                Next::Node(next) => *next as usize,
                _ => {
                    *next = Next::Node(new as u32);
                    self.nodes.push(LEAF);
                    new
                }
            };
        }
        self.nodes[node][usize::from(*last)] = Next::Character;
    }

    /// What any does at the beginning of a text.
    pub fn first_of(&self, text: &[u8]) -> Looked {
        let mut node = 0;
        for (count, &byte) in (1..).zip(text) {
            match self.nodes[node][usize::from(byte)] {
                Next::Nowhere => return Looked::alone(count),
                Next::Character => return Looked::character(count),
                Next::Node(next) => node = next as usize,
            }
        }
        match text.len() {
            0 => Looked::FAILED,
            length => Looked::alone(length + 1),
        }
    }
}
