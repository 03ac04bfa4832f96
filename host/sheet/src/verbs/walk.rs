//! A walk handed in as a run: states in turn, and no word of where they go on. So many moves prove nothing; the command says what would.

use crate::input::Source;
use crate::model::State;
use crate::proved;
use crate::story::count;

/// For a longer walk no way back is looked for.
const MOST_TRIED: usize = 400;

/// What a walk is worth: how many moves it has, what the proved judge says of the sheet, and a way back that would make it a run.
pub fn told(source: &Source, states: &[State]) -> String {
    let moves = match states.len().saturating_sub(1) {
        0 => "A single moment proves".to_string(),
        1 => "1 move proves".to_string(),
        many => format!("{} prove", count(many, "move")),
    };
    let mut told = format!("     {moves} nothing: only a run that goes on for ever shows that a sheet can be kept.\n");
    told += &format!("     The proved judge says of this sheet: {}.\n", judged(source));
    if let Some(back) = way_back(source, states) {
        told += &format!("     With `back to {back}` as its last line the proved checker accepts this run.\n");
    }
    told
}

/// The judge's verdict on the sheet.
fn judged(source: &Source) -> &'static str {
    match proved::Room::new().answer(&source.bytes) {
        12 => "it can be kept",
        13 => "it cannot be kept; no run obeys it",
        _ => "there is no room to judge it",
    }
}

/// The first moment to which the walk could go back from its end, so that the run obeys.
fn way_back(source: &Source, states: &[State]) -> Option<u32> {
    if states.len() > MOST_TRIED {
        return None;
    }
    (0..states.len() as u32).find(|&back| proved::check_run(&source.bytes, states, back) == 0)
}
