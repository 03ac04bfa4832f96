//! Why a sheet cannot be kept, in one phrase: how its strike list begins.

use crate::model::{Rule, Sheet};
use crate::paper::REASONS;
use crate::proved::Judged;
use crate::story::clash::{after, on_first, smallest, PATIENCE};
use crate::text::print;
use std::cell::Cell;

/// More rules than this are counted, not named.
const MOST_NAMED: usize = 4;

/// The first struck state and why, or why there is no first state. Which rules clash is this command's own look.
pub fn first_clash(sheet: &Sheet, judged: &Judged) -> String {
    let patience = Cell::new(PATIENCE);
    let (Some(&state), Some(&word)) = (judged.table.first(), judged.words.first()) else {
        return format!("no first state: {}", clash(&smallest(sheet, on_first(sheet), &patience)));
    };
    let from = print::state(sheet, state);
    match word % REASONS {
        0 => format!("no way on from {from}: {}", clash(&smallest(sheet, after(sheet, state), &patience))),
        promise => {
            let literal = sheet.promises.get(promise as usize - 1).map(|&literal| print::literal(sheet, literal)).unwrap_or_default();
            format!("promise {promise} ({literal}) cannot be kept from {from}")
        }
    }
}

/// The rules that leave no state.
fn clash(demands: &[Rule]) -> String {
    let names: Vec<String> = demands.iter().map(|demand| format!("{} {}", demand.kind(), demand.number())).collect();
    match names.split_last() {
        None => "the limits and rules leave no state".to_string(),
        Some((last, [])) => format!("{last} leaves no state"),
        Some(_) if names.len() > MOST_NAMED => format!("{} limits and rules clash", names.len()),
        Some((last, others)) => format!("{} and {last} clash", others.join(", ")),
    }
}
