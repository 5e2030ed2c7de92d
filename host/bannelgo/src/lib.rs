//! A formally verified, incremental reader for parsing expression grammars.
//!
//! A [`Sheet`] is a text that is being typed. It is read by a [`Grammar`], and what a rule gave at a
//! position is kept as a record. A key drops only the records that it can have changed, and the reading
//! after it evaluates only what has no record. The library that reads, edits and lists is proved to give
//! exactly what Ford's rules give. What this crate puts around it is tested and not proved: the builder,
//! the words of refusals, trees and places.
//!
//! ```
//! use bannelgo::grammar::{call, range, sequence, star, Grammar};
//! use bannelgo::{Outcome, Sheet};
//!
//! # fn main() -> Result<(), Box<dyn std::error::Error>> {
//! let grammar = Grammar::builder()
//!     .rule("Number", sequence([call("Digit"), star(call("Digit"))]))
//!     .rule("Digit", range(b'0', b'9'))
//!     .build()?;
//!
//! let mut sheet = Sheet::open(&grammar, "12a", 16)?; // room for 16 bytes
//! let first = sheet.read()?;
//! assert_eq!(first.reading.outcome, Outcome::Part);
//! assert_eq!(first.evaluations, 4);
//!
//! sheet.edit(2..3, "3")?; // the letter gives way to a digit
//! let after = sheet.read()?;
//! assert_eq!(after.reading.outcome, Outcome::Whole);
//! assert_eq!(after.evaluations, 3);
//!
//! print!("{}", sheet.tree()?);
//! # Ok(())
//! # }
//! ```
//!
//! - [`grammar`]: writing a grammar, rule by rule; or [`Grammar::from_image`] for one that is there as
//!   bytes.
//! - [`Sheet`]: open, edit, read, look up, list.
//! - [`Tree`]: the calls that made a match, with rule names and texts.
//! - [`check_image`] and [`plain_reading`]: single calls without records.
//! - [`lending`]: the sheet's calls over buffers of your own.
//! - [`Refusal`]: why there is no answer. No argument makes a call panic.
//!
//! The package's examples/ has three programs: `typing`, the shortest one to begin with; `json`, RFC 8259
//! as a grammar and a document typed key by key; `highlight`, colours by rows over buffers of its own.
//!
//! A stack of 2 MiB, which Rust gives a thread by default, is enough for every reading, plain reading and
//! listing: at the greatest nesting they take up to 1.5 MiB of it.

#![deny(missing_docs, missing_debug_implementations)]

pub mod grammar;
mod image;
pub mod lending;
mod place;
mod plain;
#[doc(hidden)]
pub mod raw;
mod reading;
mod record;
mod refusal;
mod rows;
mod sheet;

pub use grammar::Grammar;
pub use image::{check_image, Fault};
pub use place::Place;
pub use plain::plain_reading;
pub use reading::{Edited, Outcome, Reading, SheetReading};
pub use record::Record;
pub use refusal::{LoanFault, Refusal};
pub use rows::{Call, Children, DownTo, Listing, Row, Tree};
pub use sheet::{Sheet, MOST_ROWS};

/// The most bytes that a text, and the room for it, can have.
pub const MOST_BYTES: usize = 65_535;

/// The greatest nesting of a reading: of so many evaluations inside each other it is answered, of more it
/// is refused with 14.
pub const MOST_NESTING: usize = 4_096;

/// The README's programs, as doc tests.
#[cfg(doctest)]
#[doc = include_str!("../../../README.md")]
struct Readme;
