//! The families of images and texts that the comparison of readings goes through.

pub mod deep;
pub mod every;
pub mod long;
pub mod random;
pub mod refused;
pub mod shapes;
pub mod sheets;
pub mod subject;
pub mod tally;
