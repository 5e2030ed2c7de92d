//! Cases that are worked out by hand, asked of the library and of what is written apart from it.

pub mod readings;
pub mod sessions;
