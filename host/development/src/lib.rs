//! What Bannelgo's gap-sheet reader is developed with, apart from the package `bannelgo` that a host
//! uses.
//!
//! `reference` answers the same questions as the proved library, with code written apart from it, and
//! the tests compare the two. The other modules make grammar images, texts and calls.

pub mod big_images;
pub mod calls;
pub mod dots;
pub mod expected;
pub mod expr;
pub mod figures;
pub mod gap_sheet;
pub mod gap_text;
pub mod generate;
pub mod image_words;
pub mod numbering;
pub mod packrat;
pub mod reference;
pub mod rng;
pub mod samples;
pub mod small_stack;
