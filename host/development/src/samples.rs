//! The paper's marked images, byte for byte, with the numbers that they get.

/// An image with its name in the paper and its number.
pub struct Sample {
    pub name: &'static str,
    pub about: &'static str,
    pub image: &'static [u8],
    pub number: u64,
}

/// Rule 0 = rule 1, then rule 1 zero or more times; rule 1 = 0x30 to 0x39.
pub const D2: [u8; 28] = [
    0x10, 0x20, 0x05, 0x00, // edition 1, 2 rules, 5 nodes, start 0
    0x00, 0x00, 0x00, 0x04, // roots 0 and 4
    0x30, 0x00, 0x10, 0x02, // 0: node 1 then node 2
    0x70, 0x00, 0x10, 0x00, // 1: rule 1
    0x50, 0x00, 0x30, 0x00, // 2: node 3 zero or more times
    0x70, 0x00, 0x10, 0x00, // 3: rule 1
    0x20, 0x03, 0x00, 0x39, // 4: 0x30 to 0x39
];

/// S = S then a byte.
pub const M7: [u8; 18] = [
    0x10, 0x10, 0x03, 0x00, // edition 1, 1 rule, 3 nodes, start 0
    0x00, 0x00, // root 0
    0x30, 0x00, 0x10, 0x02, // 0: node 1 then node 2
    0x70, 0x00, 0x00, 0x00, // 1: rule 0
    0x10, 0x00, 0x00, 0x00, // 2: any
];

/// S = not S.
pub const M8: [u8; 14] = [
    0x10, 0x10, 0x02, 0x00, // edition 1, 1 rule, 2 nodes, start 0
    0x00, 0x00, // root 0
    0x60, 0x00, 0x10, 0x00, // 0: not node 1
    0x70, 0x00, 0x00, 0x00, // 1: rule 0
];

/// A star over not a byte.
pub const M9: [u8; 18] = [
    0x10, 0x10, 0x03, 0x00, // edition 1, 1 rule, 3 nodes, start 0
    0x00, 0x00, // root 0
    0x50, 0x00, 0x10, 0x00, // 0: node 1 zero or more times
    0x60, 0x00, 0x20, 0x00, // 1: not node 2
    0x10, 0x00, 0x00, 0x00, // 2: any
];

/// S = ("(" then S) else empty. A text of k brackets has nesting 3 × k + 3.
pub const M10: [u8; 26] = [
    0x10, 0x10, 0x05, 0x00, // edition 1, 1 rule, 5 nodes, start 0
    0x00, 0x00, // root 0
    0x40, 0x00, 0x10, 0x04, // 0: node 1, else node 4
    0x30, 0x00, 0x20, 0x03, // 1: node 2 then node 3
    0x20, 0x02, 0x80, 0x28, // 2: 0x28
    0x70, 0x00, 0x00, 0x00, // 3: rule 0
    0x00, 0x00, 0x00, 0x00, // 4: empty
];

pub const SAMPLES: [Sample; 5] = [
    Sample {
        name: "D2",
        about: "digits",
        image: &D2,
        number: 0,
    },
    Sample {
        name: "M7",
        about: "S = S then a byte",
        image: &M7,
        number: 7,
    },
    Sample {
        name: "M8",
        about: "S = not S",
        image: &M8,
        number: 7,
    },
    Sample {
        name: "M9",
        about: "star over not a byte",
        image: &M9,
        number: 6,
    },
    Sample {
        name: "M10",
        about: "S = (\"(\" then S) else empty",
        image: &M10,
        number: 0,
    },
];
