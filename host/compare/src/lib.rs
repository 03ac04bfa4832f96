//! What the programs here share: the proved judge, with its numbers as the plain one gives them.
//!
//! All other calls are used as `host/calls` has them.

#![deny(warnings)]

use naxxurbi_calls::{Numbers, State};
use plain::judge::Answer;

/// Judges a sheet with the proved judge: answer, count, a, b and place.
pub fn judge(sheet: &[u8], table: &mut [State], words: &mut [u32], scratch: &mut [State], run: &mut [State]) -> Answer {
    let Numbers { answer, count, a, b, place } = naxxurbi_calls::judge(sheet, table, words, scratch, run);
    Answer { answer, count, a, b, place }
}
