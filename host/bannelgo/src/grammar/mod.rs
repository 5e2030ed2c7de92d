//! Writing a grammar: rules by name, each with an expression.
//!
//! ```
//! use bannelgo::grammar::{call, choice, literal, range, sequence, star, Grammar};
//!
//! // Sum <- Value ("+" Value / "-" Value)*
//! // Value <- "(" Sum ")" / [0-9] [0-9]*
//! let digit = || range(b'0', b'9');
//! let term = |sign| sequence([literal(sign), call("Value")]);
//! let grammar = Grammar::builder()
//!     .rule("Sum", sequence([call("Value"), star(choice([term("+"), term("-")]))]))
//!     .rule(
//!         "Value",
//!         choice([
//!             sequence([literal("("), call("Sum"), literal(")")]),
//!             sequence([digit(), star(digit())]),
//!         ]),
//!     )
//!     .build()?;
//! assert!(grammar.read("1+(23-4)")?.is_whole());
//! # Ok::<(), Box<dyn std::error::Error>>(())
//! ```
//!
//! A grammar that breaks a rule of the reader is refused, with the rule that it is about:
//!
//! ```
//! use bannelgo::grammar::{call, literal, sequence, Grammar};
//!
//! let refused = Grammar::builder()
//!     .rule("Sum", sequence([call("Sum"), literal("+"), call("Sum")]))
//!     .build()
//!     .unwrap_err();
//! assert_eq!(refused.number(), Some(7));
//! assert_eq!(refused.to_string(), "rule Sum is called from itself without consuming");
//! ```

mod builder;
mod encode;
mod error;
mod expr;
mod name;

pub use builder::Builder;
pub use error::GrammarError;
pub use expr::{
    and, any, byte, call, choice, either_case, empty, literal, not, one_of, optional, plus, range,
    sequence, star, times, Expr,
};
pub(crate) use name::shown_name;

use crate::image::{check_image, Header};
use crate::plain::plain_reading;
use crate::reading::Reading;
use crate::refusal::Refusal;
use std::fmt;
use std::sync::Arc;

/// The most rules that a grammar can have.
pub const MOST_RULES: usize = 64;

/// The most nodes that a grammar can have: each expression is one, and so is each part of it.
pub const MOST_NODES: usize = 1_024;

/// A grammar that the proved check has accepted. A copy is cheap: it shares the image and the names.
///
/// ```
/// use bannelgo::grammar::{call, plus, range, Grammar};
///
/// let grammar = Grammar::builder()
///     .rule("Number", plus(call("Digit")))
///     .rule("Digit", range(b'0', b'9'))
///     .build()?;
/// assert_eq!(grammar.rule("Digit"), Some(1)); // by name
/// assert_eq!(grammar.name(grammar.start()), Some("Number")); // by number
/// assert_eq!(grammar.names().count(), 2);
/// # Ok::<(), Box<dyn std::error::Error>>(())
/// ```
#[derive(Clone, PartialEq, Eq)]
pub struct Grammar {
    image: Arc<[u8]>,
    names: Arc<[String]>,
    start: usize,
}

impl Grammar {
    /// A grammar written rule by rule.
    pub fn builder() -> Builder {
        Builder::default()
    }

    /// The grammar in an image; its rules are named by their numbers. A refusal is one of 1 to 7.
    ///
    /// ```
    /// use bannelgo::grammar::{any, Grammar};
    ///
    /// let written = Grammar::builder().rule("Character", any()).build()?;
    /// let read = Grammar::from_image(written.image())?;
    /// assert_eq!(read.image(), written.image());
    /// assert_eq!(read.name(0), Some("rule 0"));
    /// # Ok::<(), Box<dyn std::error::Error>>(())
    /// ```
    pub fn from_image(image: &[u8]) -> Result<Grammar, Refusal> {
        check_image(image)?;
        let rules = Header::of(image).map_or(0, |header| header.rules);
        let names = (0..rules).map(|rule| format!("rule {rule}"));
        Ok(Grammar::of(image.to_vec(), names.collect()))
    }

    /// An accepted image and a name for each rule.
    fn of(image: Vec<u8>, names: Vec<String>) -> Grammar {
        Grammar {
            start: Header::of(&image).map_or(0, |header| header.start),
            image: image.into(),
            names: names.into(),
        }
    }

    /// The image: the bytes that the library reads the grammar from. docs/IMAGE.md describes them.
    pub fn image(&self) -> &[u8] {
        &self.image
    }

    /// The rules' names, in the order of their numbers.
    pub fn names(&self) -> impl Iterator<Item = &str> {
        self.names.iter().map(String::as_str)
    }

    /// The number of rules.
    pub fn rules(&self) -> usize {
        self.names.len()
    }

    /// The number of nodes: the expressions and their parts.
    pub fn nodes(&self) -> usize {
        Header::of(&self.image).map_or(0, |header| header.nodes)
    }

    /// The name of a rule, by its number.
    pub fn name(&self, rule: usize) -> Option<&str> {
        self.names.get(rule).map(String::as_str)
    }

    /// The number of a rule, by its name.
    pub fn rule(&self, name: &str) -> Option<usize> {
        self.names.iter().position(|other| other == name)
    }

    /// The number of the start rule.
    pub fn start(&self) -> usize {
        self.start
    }

    /// Reads a text without records, as [`plain_reading`] does. A refusal has number 8 or 14.
    ///
    /// With some grammars the time grows exponentially with the text; a [`Sheet`](crate::Sheet) evaluates
    /// each rule at most once at each position.
    ///
    /// ```
    /// use bannelgo::grammar::{plus, range, Grammar};
    ///
    /// let grammar = Grammar::builder().rule("Number", plus(range(b'0', b'9'))).build()?;
    /// let reading = grammar.read("12 kWh")?;
    /// assert_eq!((reading.is_whole(), reading.length), (false, 2));
    /// # Ok::<(), Box<dyn std::error::Error>>(())
    /// ```
    pub fn read(&self, text: impl AsRef<[u8]>) -> Result<Reading, Refusal> {
        plain_reading(&self.image, text.as_ref())
    }
}

impl fmt::Debug for Grammar {
    fn fmt(&self, out: &mut fmt::Formatter<'_>) -> fmt::Result {
        out.debug_struct("Grammar")
            .field("start", &self.name(self.start))
            .field("names", &self.names)
            .field("image", &format_args!("{} bytes", self.image.len()))
            .finish()
    }
}
