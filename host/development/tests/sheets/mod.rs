//! The families of lists and single calls that the comparison of sheets goes through.

pub mod answers;
pub mod any_table;
pub mod bad_loans;
pub mod cases;
pub mod characters;
pub mod deep;
pub mod edited;
pub mod every;
pub mod fence;
pub mod foreign;
pub mod free;
pub mod lent;
pub mod listings;
pub mod lists;
pub mod long;
pub mod planners;
pub mod session;
pub mod tally;
pub mod true_tables;
pub mod words;
