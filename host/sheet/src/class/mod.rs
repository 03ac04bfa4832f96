//! A class of sheets: which files it has, what is said of each, and how that is told.

pub mod files;
pub mod look;
pub mod phrase;
pub mod told;
