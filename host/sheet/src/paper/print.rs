//! A paper in the form that `check` reads.

use crate::model::{Sheet, State};
use crate::paper::{Paper, REASONS};
use crate::text::print;

/// The paper's text, its states by names or as numbers.
pub fn print(sheet: &Sheet, paper: &Paper, numbers: bool) -> String {
    let state = |state: State| if numbers { state.to_string() } else { print::state(sheet, state) };
    match paper {
        Paper::Run(states, a) => {
            let lines = states.iter().enumerate().map(|(moment, &at)| format!("{}  # moment {moment}\n", state(at)));
            format!("run\n{}back to {a}\n", lines.collect::<String>())
        }
        Paper::Strikes(states, words) => {
            let mut text = "strikes\n".to_string();
            for (place, (&at, &word)) in states.iter().zip(words).enumerate() {
                if place == 0 || words[place - 1] != word {
                    text += &format!("{}\n", heading(word));
                }
                text += &format!("  {}\n", state(at));
            }
            text
        }
    }
}

/// The heading over the states of one word.
pub fn heading(word: u32) -> String {
    match word % REASONS {
        0 => format!("round {}, no way on", word / REASONS),
        promise => format!("round {}, promise {promise}", word / REASONS),
    }
}
