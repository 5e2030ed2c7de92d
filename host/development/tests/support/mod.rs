//! The families of images that the comparison goes through, and what it counts.

pub mod chains;
pub mod damage;
pub mod exhaustive;
pub mod faults;
pub mod headers;
pub mod least_sets;
pub mod random;
pub mod tally;
