//! JSON texts, written by hand and drawn, and how they are read.

pub mod both;
pub mod draws;
pub mod texts;
