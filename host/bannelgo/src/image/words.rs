//! The words of an image, read without judging them.

/// The fields of an image's first four bytes.
#[derive(Clone, Copy, Debug)]
pub(crate) struct Header {
    pub(crate) edition: u8,
    pub(crate) rules: usize,
    pub(crate) nodes: usize,
    pub(crate) start: usize,
}

/// A node's word: kind 4 bits, zero 3, fold 1, A 12, B 12.
#[derive(Clone, Copy, Debug)]
pub(super) struct NodeWord {
    pub(super) kind: u8,
    pub(super) zero: u8,
    pub(super) fold: bool,
    pub(super) a: usize,
    pub(super) b: usize,
}

/// The words behind the header, of an image that has just these.
#[derive(Debug)]
pub(super) struct Words {
    pub(super) rules: Vec<u16>,
    pub(super) nodes: Vec<NodeWord>,
}

impl Header {
    /// Edition 4 bits, rules 8, nodes 12, start 8; nothing where there are fewer than 4 bytes.
    pub(crate) fn of(image: &[u8]) -> Option<Header> {
        let word = u32::from_be_bytes(image.get(..4)?.try_into().ok()?);
        Some(Header {
            edition: (word >> 28) as u8,
            rules: (word >> 20 & 0xFF) as usize,
            nodes: (word >> 8 & 0xFFF) as usize,
            start: (word & 0xFF) as usize,
        })
    }

    /// The bytes that an image with this header has.
    pub(super) fn image_bytes(&self) -> usize {
        4 + 2 * self.rules + 4 * self.nodes
    }
}

impl Words {
    /// Nothing where the image has fewer bytes than its header says.
    pub(super) fn of(image: &[u8], header: &Header) -> Option<Words> {
        let words = image.get(4..header.image_bytes())?;
        let (rules, nodes) = words.split_at(2 * header.rules);
        let rules = rules.chunks_exact(2);
        let nodes = nodes.chunks_exact(4);
        Some(Words {
            rules: rules
                .map(|two| u16::from_be_bytes([two[0], two[1]]))
                .collect(),
            nodes: nodes
                .map(|four| NodeWord::of([four[0], four[1], four[2], four[3]]))
                .collect(),
        })
    }
}

impl NodeWord {
    fn of(bytes: [u8; 4]) -> NodeWord {
        let word = u32::from_be_bytes(bytes);
        NodeWord {
            kind: (word >> 28) as u8,
            zero: (word >> 25 & 0x7) as u8,
            fold: word >> 24 & 1 == 1,
            a: (word >> 12 & 0xFFF) as usize,
            b: (word & 0xFFF) as usize,
        }
    }

    /// The fields that name children.
    pub(super) fn children(&self) -> impl Iterator<Item = usize> {
        let fields = [self.a, self.b];
        let count = match self.kind {
            3 | 4 => 2,
            5 | 6 => 1,
            _ => 0,
        };
        fields.into_iter().take(count)
    }
}
