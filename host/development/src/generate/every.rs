//! Every grammar of a small size.

use crate::expr::{not, or_else, star, then, Expr, Grammar};

/// Gives `visit` every grammar with so many rules and at most so many nodes.
///
/// Its leaves are calls and the expressions in `leaves`.
pub fn each_grammar(
    rules: usize,
    most_nodes: usize,
    leaves: &[Expr],
    visit: &mut impl FnMut(&Grammar),
) {
    let mut leaves = leaves.to_vec();
    leaves.extend((0..rules).map(|rule| Expr::Call(rule as u8)));
    let trees = trees_by_size(most_nodes, leaves);
    let mut grammar = Grammar {
        start: 0,
        rules: vec![],
    };
    extend(&trees, rules, most_nodes, &mut grammar, visit);
}

fn extend(
    trees: &[Vec<Expr>],
    missing: usize,
    nodes_left: usize,
    grammar: &mut Grammar,
    visit: &mut impl FnMut(&Grammar),
) {
    if missing == 0 {
        return visit(grammar);
    }
    for size in 1..=nodes_left + 1 - missing {
        for tree in &trees[size] {
            grammar.rules.push(tree.clone());
            extend(trees, missing - 1, nodes_left - size, grammar, visit);
            grammar.rules.pop();
        }
    }
}

/// All trees over these leaves; the place in the list is the number of nodes.
fn trees_by_size(most_nodes: usize, leaves: Vec<Expr>) -> Vec<Vec<Expr>> {
    let mut trees = vec![vec![], leaves];
    for size in 2..=most_nodes {
        let mut found = vec![];
        for a in &trees[size - 1] {
            found.extend([star(a.clone()), not(a.clone())]);
        }
        for left in 1..size - 1 {
            for a in &trees[left] {
                for b in &trees[size - 1 - left] {
                    found.push(then(a.clone(), b.clone()));
                    found.push(or_else(a.clone(), b.clone()));
                }
            }
        }
        trees.push(found);
    }
    trees
}
