//! The verbs, a file each. A new verb is one more file and one more line in `ALL`.

pub mod audit;
pub mod check;
pub mod clash;
pub mod class;
pub mod draw;
pub mod judge;
pub mod read;
pub mod walk;
pub mod write;

use crate::call::{Call, Choice, COMMON};
use crate::out::Page;

/// A verb of the command.
pub struct Verb {
    /// Its name.
    pub name: &'static str,
    /// What stands behind it.
    pub usage: &'static str,
    /// What it does, in a line.
    pub about: &'static str,
    /// More about it, with an example.
    pub help: &'static str,
    /// The least and the greatest number of files.
    pub files: (usize, usize),
    /// Its own options.
    pub choices: &'static [Choice],
    /// What it does.
    pub act: fn(&Call, &mut Page) -> Result<(), String>,
}

/// Every verb.
pub const ALL: [&Verb; 8] = [&write::VERB, &read::VERB, &judge::VERB, &clash::VERB, &class::VERB, &check::VERB, &audit::VERB, &draw::VERB];

impl Verb {
    /// Its own options, then those of every verb.
    pub fn all_choices(&self) -> Vec<&'static Choice> {
        self.choices.iter().chain(&COMMON).collect()
    }
}
