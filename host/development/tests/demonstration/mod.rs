//! What the demonstration printed, part by part, beside what the ledger says.

mod accents;
mod costs;
mod images;
mod keys;
pub mod output;
mod refusals;
mod sheet;
mod table;
pub mod typed;
