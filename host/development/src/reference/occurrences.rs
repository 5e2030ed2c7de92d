//! Question 5: does each node occur exactly once among roots and children?

use super::words::{NodeWord, Words};

pub fn each_node_once(words: &Words) -> bool {
    times(words).iter().all(|&count| count == 1)
}

/// How often each node is a root or a child.
pub fn times(words: &Words) -> Vec<usize> {
    let mut times = vec![0; words.nodes.len()];
    for &root in &words.roots {
        times[root] += 1;
    }
    for child in words.nodes.iter().flat_map(NodeWord::children) {
        times[child] += 1;
    }
    times
}
