//! Byte strings, and what any does at their beginning, said in two more ways than the reference's.

pub mod all_chars;
pub mod one_call;
pub mod strings;
