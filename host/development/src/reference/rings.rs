//! Question 7 by another idea: given question 6, an image passes 7 exactly when no rule leads back
//! to itself. Rule r leads to t when r's body, taken through every child that the well-formed test
//! requires, meets a call of t.
//!
//! Why this is enough: without a ring every root is in the well-formed set, from the rules that lead
//! nowhere upward. Below well-formed roots every node is in the set, because calls are and because
//! question 6 has settled the stars. With a ring no rule of the ring is ever added to the least set.

use super::outcomes::{of_expr, Outcomes};
use crate::expr::Expr;

#[derive(Clone, Copy, PartialEq, Eq)]
enum Colour {
    /// Not visited.
    White,
    /// On the path from the rule where the search began.
    Grey,
    /// Visited, with everything it leads to; no ring goes through it.
    Black,
}

/// Is there a ring?
pub fn found(bodies: &[Expr], sets: &[Outcomes]) -> bool {
    let leads: Vec<Vec<usize>> = bodies.iter().map(|body| leads_to(body, sets)).collect();
    let mut colours = vec![Colour::White; bodies.len()];
    (0..bodies.len()).any(|rule| ring_from(rule, &leads, &mut colours))
}

pub fn leads_to(body: &Expr, sets: &[Outcomes]) -> Vec<usize> {
    let mut calls = vec![];
    collect_required_calls(body, sets, &mut calls);
    calls
}

fn collect_required_calls(expr: &Expr, sets: &[Outcomes], calls: &mut Vec<usize>) {
    match expr {
        Expr::Empty | Expr::Any | Expr::Bytes(..) | Expr::Folded(..) => {}
        Expr::Then(a, b) => {
            collect_required_calls(a, sets, calls);
            if of_expr(a, sets).zero {
                collect_required_calls(b, sets, calls);
            }
        }
        Expr::Else(a, b) => {
            collect_required_calls(a, sets, calls);
            collect_required_calls(b, sets, calls);
        }
        Expr::Star(a) | Expr::Not(a) => collect_required_calls(a, sets, calls),
        Expr::Call(rule) => calls.push(usize::from(*rule)),
    }
}

/// Depth-first search; a grey rule met again closes a ring.
fn ring_from(rule: usize, leads: &[Vec<usize>], colours: &mut [Colour]) -> bool {
    match colours[rule] {
        Colour::Grey => return true,
        Colour::Black => return false,
        Colour::White => colours[rule] = Colour::Grey,
    }
    let ring = leads[rule]
        .iter()
        .any(|&next| ring_from(next, leads, colours));
    colours[rule] = Colour::Black;
    ring
}
