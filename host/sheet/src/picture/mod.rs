//! The reachable states of a small sheet as a picture (SVG), without any other program.

pub mod curve;
pub mod dot;
pub mod graph;
pub mod layout;
pub mod legend;
pub mod svg;
pub mod thin;

/// The most states that are drawn.
pub const MOST_DRAWN: usize = 60;
