//! The proved library's functions over slices, and their answers number by number.
//!
//! For the development of this crate: its tests hold every number of an answer to the recogniser and
//! the ledger written apart. A host uses [`crate::Sheet`] or [`crate::lending`].

pub(crate) mod answers;
mod calls;
mod symbols;

pub use answers::Unanswered;
pub use calls::{check_image, edit, list, look_up, open, plain_reading, read};

/// What a sheet's call answers: `struct bannelgo_answer` of the C header. Fields that a call does not
/// use are 0.
#[repr(C)]
#[derive(Clone, Copy, Debug, Default, PartialEq, Eq)]
pub struct Fields {
    /// 0 where the call is answered, else the number of the first question that it fails.
    pub number: u64,
    /// 0 nothing, 1 part, 2 whole.
    pub outcome: u64,
    /// The text's length after an opening or an edit, the match's after a reading.
    pub length: u64,
    /// The examined length of a reading.
    pub examined: u64,
    /// The nesting of a reading.
    pub nesting: u64,
    /// The pairs that a reading evaluated.
    pub evaluations: u64,
    /// The pairs that stand after an edit; the word that was looked up; the number of rows.
    pub value: u64,
}
