//! A ring of rules that lead back to the first without consuming.

use super::outcomes::ZERO;
use super::words::Words;
use std::collections::VecDeque;

/// The rules of a shortest ring, from its lowest rule on, of an image whose words are lawful; nothing
/// where there is none.
pub(super) fn shortest_ring(words: &Words, sets: &[u8]) -> Option<Vec<usize>> {
    let leads: Vec<Vec<usize>> = (0..words.rules.len())
        .map(|rule| leads_to(words, sets, rule))
        .collect();
    let rings = (0..leads.len()).filter_map(|rule| ring_from(&leads, rule));
    rings.min_by_key(Vec::len)
}

/// The rules that a rule's body calls before it has consumed anything, also inside a not.
fn leads_to(words: &Words, sets: &[u8], rule: usize) -> Vec<usize> {
    let mut called = vec![];
    let mut nodes = vec![usize::from(words.rules[rule])];
    while let Some(node) = nodes.pop() {
        let word = words.nodes[node];
        match word.kind {
            7 => called.push(word.a),
            3 if sets[word.a] & ZERO == 0 => nodes.push(word.a),
            _ => nodes.extend(word.children()),
        }
    }
    called.sort_unstable();
    called.dedup();
    called
}

/// A shortest way from a rule back to itself, by breadth-first search.
fn ring_from(leads: &[Vec<usize>], first: usize) -> Option<Vec<usize>> {
    let mut from = vec![None; leads.len()];
    let mut queue = VecDeque::from([first]);
    while let Some(rule) = queue.pop_front() {
        for &next in &leads[rule] {
            if next == first {
                return Some(way(&from, first, rule));
            }
            if from[next].is_none() {
                from[next] = Some(rule);
                queue.push_back(next);
            }
        }
    }
    None
}

fn way(from: &[Option<usize>], first: usize, last: usize) -> Vec<usize> {
    let mut rules = vec![last];
    while let Some(&rule) = rules.last().filter(|&&rule| rule != first) {
        match from[rule] {
            Some(before) => rules.push(before),
            None => break,
        }
    }
    rules.reverse();
    rules
}
