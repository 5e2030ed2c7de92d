//! Why rules make no grammar.

use super::name::shown_name;
use crate::image::{ring_in_words, star_in_words, Fault};
use crate::refusal::{counted, Refusal};
use std::fmt;

/// Why [`Builder::build`](super::Builder::build) made no grammar.
///
/// ```
/// use bannelgo::grammar::{call, literal, sequence, Grammar, GrammarError};
///
/// let sum = sequence([call("Sum"), literal("+"), call("Nunber")]);
/// let Err(error) = Grammar::builder().rule("Sum", sum).build() else {
///     panic!("no rule has the name Nunber");
/// };
/// assert_eq!(error.to_string(), r#"rule Sum calls "Nunber", and no rule has that name"#);
/// assert!(matches!(error, GrammarError::UndefinedRule { name, .. } if name == "Nunber"));
/// ```
#[derive(Clone, Debug, PartialEq, Eq)]
#[non_exhaustive]
pub enum GrammarError {
    /// There is no rule.
    NoRules,
    /// There are more than 64 rules.
    TooManyRules {
        /// The first rule that is too many.
        rule: String,
        /// The number of rules.
        rules: usize,
    },
    /// There are more than 1,024 nodes.
    TooManyNodes {
        /// The rule in which the limit is passed.
        rule: String,
        /// The number of nodes of all rules; `usize::MAX` where there are so many or more.
        nodes: usize,
    },
    /// Two rules have one name.
    DefinedTwice {
        /// The name.
        rule: String,
    },
    /// A rule calls a name that no rule has.
    UndefinedRule {
        /// The rule that calls it.
        rule: String,
        /// The name.
        name: String,
    },
    /// No rule has the name of the start rule.
    UndefinedStart {
        /// The name.
        name: String,
    },
    /// A range ends below its beginning.
    EmptyRange {
        /// The rule that has it.
        rule: String,
        /// Its beginning.
        low: u8,
        /// Its end.
        high: u8,
    },
    /// The check refused the grammar with 6: something that can match without consuming is repeated.
    RepeatsNothing {
        /// The rule that repeats it.
        rule: String,
    },
    /// The check refused the grammar with 7: a rule is called from itself without consuming.
    CallsItself {
        /// Each of these rules calls the next, and the last the first; one alone calls itself.
        rules: Vec<String>,
    },
    /// The check refused the grammar with another number.
    Refused(Refusal),
}

impl GrammarError {
    pub(super) fn refused(refusal: Refusal, names: &[String]) -> GrammarError {
        let name = |rule: &usize| names.get(*rule).cloned().unwrap_or_default();
        match &refusal {
            Refusal::Image {
                fault: Some(Fault::StarBody { rule, .. }),
                ..
            } => GrammarError::RepeatsNothing { rule: name(rule) },
            Refusal::Image {
                fault: Some(Fault::Ring { rules }),
                ..
            } => GrammarError::CallsItself {
                rules: rules.iter().map(name).collect(),
            },
            _ => GrammarError::Refused(refusal),
        }
    }

    /// The number that the check gave, or would give: 2 for too many rules or nodes, 4 for a range
    /// that ends below its beginning. Nothing where there would be no image.
    pub fn number(&self) -> Option<u8> {
        match self {
            GrammarError::NoRules
            | GrammarError::TooManyRules { .. }
            | GrammarError::TooManyNodes { .. } => Some(2),
            GrammarError::EmptyRange { .. } => Some(4),
            GrammarError::RepeatsNothing { .. } => Some(6),
            GrammarError::CallsItself { .. } => Some(7),
            GrammarError::Refused(refusal) => refusal.number(),
            GrammarError::DefinedTwice { .. }
            | GrammarError::UndefinedRule { .. }
            | GrammarError::UndefinedStart { .. } => None,
        }
    }
}

impl std::error::Error for GrammarError {}

impl fmt::Display for GrammarError {
    fn fmt(&self, out: &mut fmt::Formatter<'_>) -> fmt::Result {
        match self {
            GrammarError::NoRules => out.write_str("the grammar has no rule"),
            GrammarError::TooManyRules { rule, rules } => write!(
                out,
                "the grammar has {}; {} is the first after the 64 that it can have",
                counted(*rules, "rule"),
                shown_name(rule)
            ),
            GrammarError::TooManyNodes { rule, nodes } => write!(
                out,
                "the grammar has {}; in {} it passes the 1,024 that it can have",
                nodes_in_words(*nodes),
                named(rule)
            ),
            GrammarError::DefinedTwice { rule } => {
                write!(out, "two rules have the name {}", shown_name(rule))
            }
            GrammarError::UndefinedRule { rule, name } => {
                let rule = named(rule);
                write!(out, "{rule} calls {name:?}, and no rule has that name")
            }
            GrammarError::UndefinedStart { name } => {
                write!(out, "the start rule is {name:?}, and no rule has that name")
            }
            GrammarError::EmptyRange { rule, low, high } => write!(
                out,
                "{} has a range from {low:#04x} to {high:#04x}, which ends below its beginning",
                named(rule)
            ),
            GrammarError::RepeatsNothing { rule } => out.write_str(&star_in_words(&named(rule))),
            GrammarError::CallsItself { rules } => {
                let names: Vec<String> = rules.iter().map(|rule| named(rule)).collect();
                out.write_str(&ring_in_words(&names))
            }
            GrammarError::Refused(refusal) => write!(out, "{refusal}"),
        }
    }
}

/// A rule by its name.
fn named(rule: &str) -> String {
    format!("rule {}", shown_name(rule))
}

/// The nodes of all rules. They are not counted further than `usize::MAX`.
fn nodes_in_words(nodes: usize) -> String {
    let counted = counted(nodes, "node");
    match nodes {
        usize::MAX => format!("at least {counted}"),
        _ => counted,
    }
}
