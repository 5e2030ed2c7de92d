//! From rules by name to a grammar.

use super::encode::image_of;
use super::error::GrammarError;
use super::expr::{Expr, Part};
use super::{Grammar, MOST_NODES, MOST_RULES};
use crate::image::check_image;

/// A grammar that is being written: what [`Grammar::builder`] begins.
///
/// ```
/// use bannelgo::grammar::{call, choice, literal, Grammar};
///
/// let colours = ["red", "blue"];
/// let mut builder = Grammar::builder().rule("Colour", choice(colours.map(call)));
/// for colour in colours {
///     builder = builder.rule(colour, literal(colour));
/// }
/// let grammar = builder.build()?;
/// assert!(grammar.read("blue")?.is_whole());
/// # Ok::<(), Box<dyn std::error::Error>>(())
/// ```
#[derive(Clone, Debug, Default)]
pub struct Builder {
    rules: Vec<(String, Expr)>,
    start: Option<String>,
}

impl Builder {
    /// Adds a rule. The first one is the start rule unless [`start`](Builder::start) names another.
    ///
    /// Any text can be a name; messages and trees quote one that is empty or does not print.
    pub fn rule(mut self, name: impl Into<String>, body: Expr) -> Builder {
        self.rules.push((name.into(), body));
        self
    }

    /// Names the start rule.
    ///
    /// ```
    /// use bannelgo::grammar::{call, plus, range, Grammar};
    ///
    /// let grammar = Grammar::builder()
    ///     .rule("Digit", range(b'0', b'9'))
    ///     .rule("Number", plus(call("Digit")))
    ///     .start("Number")
    ///     .build()?;
    /// assert!(grammar.read("12")?.is_whole());
    /// # Ok::<(), Box<dyn std::error::Error>>(())
    /// ```
    pub fn start(mut self, name: impl Into<String>) -> Builder {
        self.start = Some(name.into());
        self
    }

    /// The grammar, where the proved check accepts it.
    ///
    /// ```
    /// use bannelgo::grammar::{call, Grammar};
    ///
    /// let refused = Grammar::builder().rule("Sheet", call("Line")).build().unwrap_err();
    /// assert_eq!(refused.to_string(), r#"rule Sheet calls "Line", and no rule has that name"#);
    /// ```
    pub fn build(self) -> Result<Grammar, GrammarError> {
        self.check_counts()?;
        self.check_names()?;
        let start = self.start_rule()?;
        for (name, body) in &self.rules {
            self.check_body(name, body)?;
        }
        let bodies: Vec<&Expr> = self.rules.iter().map(|(_, body)| body).collect();
        let image = image_of(start, &bodies, |name| self.number(name).unwrap_or(0));
        let checked = check_image(&image);
        let names: Vec<String> = self.rules.into_iter().map(|(name, _)| name).collect();
        match checked {
            Ok(()) => Ok(Grammar::of(image, names)),
            Err(refusal) => Err(GrammarError::refused(refusal, &names)),
        }
    }

    fn check_counts(&self) -> Result<(), GrammarError> {
        let rules = self.rules.len();
        if rules == 0 {
            return Err(GrammarError::NoRules);
        }
        if let Some((rule, _)) = self.rules.get(MOST_RULES) {
            let rule = rule.clone();
            return Err(GrammarError::TooManyRules { rule, rules });
        }
        let mut nodes = 0_usize;
        let mut passed = None;
        for (rule, body) in &self.rules {
            nodes = nodes.saturating_add(body.nodes);
            if nodes > MOST_NODES && passed.is_none() {
                passed = Some(rule.clone());
            }
        }
        match passed {
            Some(rule) => Err(GrammarError::TooManyNodes { rule, nodes }),
            None => Ok(()),
        }
    }

    fn check_names(&self) -> Result<(), GrammarError> {
        for (place, (name, _)) in self.rules.iter().enumerate() {
            if self.number(name) != Some(place) {
                return Err(GrammarError::DefinedTwice { rule: name.clone() });
            }
        }
        Ok(())
    }

    fn start_rule(&self) -> Result<usize, GrammarError> {
        match &self.start {
            None => Ok(0),
            Some(name) => self
                .number(name)
                .ok_or_else(|| GrammarError::UndefinedStart { name: name.clone() }),
        }
    }

    fn check_body(&self, rule: &str, body: &Expr) -> Result<(), GrammarError> {
        let rule = || rule.to_string();
        for part in &body.parts {
            match part {
                Part::Call(name) if self.number(name).is_none() => {
                    let (rule, name) = (rule(), name.clone());
                    return Err(GrammarError::UndefinedRule { rule, name });
                }
                Part::Range { low, high, .. } if low > high => {
                    let (rule, low, high) = (rule(), *low, *high);
                    return Err(GrammarError::EmptyRange { rule, low, high });
                }
                _ => {}
            }
        }
        Ok(())
    }

    /// The number of the first rule with this name.
    fn number(&self, name: &str) -> Option<usize> {
        self.rules.iter().position(|(rule, _)| rule == name)
    }
}
