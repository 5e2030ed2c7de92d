//! Outcome sets, and question 6: does every star's body lack outcome 0?
//!
//! Only rules have a set that is kept. The set of any other expression is worked out from its tree
//! and the rules' sets each time it is asked for.

use crate::expr::Expr;

/// What an expression can do: match without consuming, match and consume, fail.
#[derive(Clone, Copy, Debug, Default, PartialEq, Eq)]
pub struct Outcomes {
    pub zero: bool,
    pub one: bool,
    pub fail: bool,
}

impl Outcomes {
    const OF_EMPTY: Outcomes = Outcomes {
        zero: true,
        one: false,
        fail: false,
    };
    const OF_TERMINAL: Outcomes = Outcomes {
        zero: false,
        one: true,
        fail: true,
    };

    fn matches(self) -> bool {
        self.zero || self.one
    }

    fn then(self, b: Outcomes) -> Outcomes {
        Outcomes {
            zero: self.zero && b.zero,
            one: (self.one && b.matches()) || (self.zero && b.one),
            fail: self.fail || (self.matches() && b.fail),
        }
    }

    fn or_else(self, b: Outcomes) -> Outcomes {
        Outcomes {
            zero: self.zero || (self.fail && b.zero),
            one: self.one || (self.fail && b.one),
            fail: self.fail && b.fail,
        }
    }

    fn star(self) -> Outcomes {
        Outcomes {
            zero: self.fail,
            one: self.one,
            fail: false,
        }
    }

    fn not(self) -> Outcomes {
        Outcomes {
            zero: self.fail,
            one: false,
            fail: self.matches(),
        }
    }
}

/// The outcomes of an expression where `rules` are those of the rules it calls.
pub fn of_expr(expr: &Expr, rules: &[Outcomes]) -> Outcomes {
    match expr {
        Expr::Empty => Outcomes::OF_EMPTY,
        Expr::Any | Expr::Bytes(..) | Expr::Folded(..) => Outcomes::OF_TERMINAL,
        Expr::Then(a, b) => of_expr(a, rules).then(of_expr(b, rules)),
        Expr::Else(a, b) => of_expr(a, rules).or_else(of_expr(b, rules)),
        Expr::Star(a) => of_expr(a, rules).star(),
        Expr::Not(a) => of_expr(a, rules).not(),
        Expr::Call(rule) => rules[usize::from(*rule)],
    }
}

/// The least sets: they begin without outcomes and grow until no rule's set changes.
pub fn of_rules(bodies: &[Expr]) -> Vec<Outcomes> {
    let mut sets = vec![Outcomes::default(); bodies.len()];
    let mut changed = true;
    while changed {
        changed = false;
        for (rule, body) in bodies.iter().enumerate() {
            let found = of_expr(body, &sets);
            changed |= found != sets[rule];
            sets[rule] = found;
        }
    }
    sets
}

/// Question 6, asked once the rules' sets are final.
pub fn star_bodies_lack_zero(bodies: &[Expr], rules: &[Outcomes]) -> bool {
    bodies.iter().all(|body| stars_in(body, rules))
}

fn stars_in(expr: &Expr, rules: &[Outcomes]) -> bool {
    match expr {
        Expr::Empty | Expr::Any | Expr::Bytes(..) | Expr::Folded(..) | Expr::Call(_) => true,
        Expr::Then(a, b) | Expr::Else(a, b) => stars_in(a, rules) && stars_in(b, rules),
        Expr::Star(a) => !of_expr(a, rules).zero && stars_in(a, rules),
        Expr::Not(a) => stars_in(a, rules),
    }
}
