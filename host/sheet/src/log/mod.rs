//! A monitor's recorded log: read in pieces, its breaches, and what is told of them.

pub mod breach;
pub mod csv;
pub mod json;
pub mod read;
pub mod told;
