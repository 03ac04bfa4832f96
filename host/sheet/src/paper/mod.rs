//! Papers as text: a sample run or a strike list. docs/TEXT.md has the form.

pub mod parse;
pub mod print;

use crate::model::State;

/// Reasons run below this number: a word is 32 x round + reason.
pub const REASONS: u32 = 32;

/// A paper, whoever wrote it.
#[derive(Clone, Debug, PartialEq, Eq)]
pub enum Paper {
    /// A run: its states, and the moment that it goes back to.
    Run(Vec<State>, u32),
    /// A strike list: its states and their words, as many as states.
    Strikes(Vec<State>, Vec<u32>),
}
