//! The questions 6 and 7 straight from the paper's sentences, over the nodes of an image.
//!
//! The reference answers 7 by a search for rings, which rests on a theorem. This version has the
//! well-formed set itself and is compared with the reference. Each round works from a copy of the
//! sets of the round before.

/// Node words of an image that passes the questions 1 to 5; calls hold their rule's root in A.
struct Nodes {
    kind: Vec<u32>,
    a: Vec<usize>,
    b: Vec<usize>,
}

/// An outcome set: 0, 1, f.
type Set = [bool; 3];

/// The answer to the questions 6 and 7 for an image that passes 1 to 5.
pub fn check(image: &[u8]) -> u64 {
    let nodes = read(image);
    let outcomes = grow(vec![[false; 3]; nodes.kind.len()], |sets, node| {
        outcomes(&nodes, sets, node)
    });
    let star_fails = |node: usize| nodes.kind[node] == 5 && outcomes[nodes.a[node]][0];
    if (0..nodes.kind.len()).any(star_fails) {
        return 6;
    }
    let well_formed = grow(vec![false; nodes.kind.len()], |set, node| {
        well_formed(&nodes, &outcomes, set, node)
    });
    if well_formed.contains(&false) {
        return 7;
    }
    0
}

fn read(image: &[u8]) -> Nodes {
    let rules = usize::from(image[0] & 0xF) << 4 | usize::from(image[1] >> 4);
    let root = |rule: usize| {
        let place = 4 + 2 * rule;
        usize::from(image[place]) << 8 | usize::from(image[place + 1])
    };
    let words = image[4 + 2 * rules..].chunks_exact(4);
    let words: Vec<u32> = words
        .map(|four| u32::from_be_bytes(four.try_into().expect("four bytes")))
        .collect();
    let a = words.iter().map(|word| match word >> 28 {
        7 => root((word >> 12 & 0xFFF) as usize),
        _ => (word >> 12 & 0xFFF) as usize,
    });
    Nodes {
        kind: words.iter().map(|word| word >> 28).collect(),
        a: a.collect(),
        b: words.iter().map(|word| (word & 0xFFF) as usize).collect(),
    }
}

/// Applies `rule` to all nodes at once until nothing changes.
fn grow<T: Clone + PartialEq>(mut sets: Vec<T>, rule: impl Fn(&[T], usize) -> T) -> Vec<T> {
    loop {
        let next: Vec<T> = (0..sets.len()).map(|node| rule(&sets, node)).collect();
        if next == sets {
            return sets;
        }
        sets = next;
    }
}

fn outcomes(nodes: &Nodes, sets: &[Set], node: usize) -> Set {
    let a = || sets[nodes.a[node]];
    let b = || sets[nodes.b[node]];
    match nodes.kind[node] {
        0 => [true, false, false],
        1 | 2 => [false, true, true],
        3 => {
            let ([a0, a1, af], [b0, b1, bf]) = (a(), b());
            [
                a0 && b0,
                a1 && (b0 || b1) || a0 && b1,
                af || (a0 || a1) && bf,
            ]
        }
        4 => {
            let ([a0, a1, af], [b0, b1, bf]) = (a(), b());
            [a0 || af && b0, a1 || af && b1, af && bf]
        }
        5 => [a()[2], a()[1], false],
        6 => [a()[2], false, a()[0] || a()[1]],
        _ => a(),
    }
}

fn well_formed(nodes: &Nodes, outcomes: &[Set], set: &[bool], node: usize) -> bool {
    let (a, b) = (nodes.a[node], nodes.b[node]);
    match nodes.kind[node] {
        0..=2 => true,
        3 => set[a] && (set[b] || !outcomes[a][0]),
        4 => set[a] && set[b],
        5 => set[a] && !outcomes[a][0],
        _ => set[a],
    }
}
