//! Random logs, with breaches and without.

use super::source;
use plain::make::Rng;
use sheet::log::breach::{Audit, What};
use sheet::log::read::Piece;
use sheet::model::Sheet;
use sheet::proved;
use sheet::text::print;

/// What is wrong with a moment of a log, looked up rule by rule.
fn wrong(sheet: &Sheet, before: Option<u32>, state: u32) -> Option<What> {
    if !sheet.has(state) {
        return Some(What::NoState);
    }
    let limit = sheet.broken_limit(state).map(|at| What::Limit(at + 1));
    limit.or_else(|| match before {
        None => sheet.broken_first(state).map(|at| What::First(at + 1)),
        // Out of a number that is no state, letters beyond the sheet's are left aside.
        Some(before) => sheet.broken_step(before, state).map(|at| What::Step(at + 1)),
    })
}

/// The breaches that the command finds with the proved audit, however the log is cut, are those that a look at each moment finds.
pub fn breaches(rng: &mut Rng, sheets: usize) -> Result<String, String> {
    let mut seen = [0; 2];
    for _ in 0..sheets / 20 {
        let source = source(rng, 4);
        let dense = rng.below(3) == 0;
        let most = (1 << source.sheet.names.len()) + u32::from(dense);
        let lucky = proved::judge(&source.bytes).run;
        let states: Vec<u32> = (0..rng.below(60))
            .map(
                |at| if dense || lucky.is_empty() || rng.below(9) == 0 { rng.below(most as usize) as u32 } else { lucky[at % lucky.len()] },
            )
            .collect();
        let mut audit = Audit::new(&source.sheet, &source.bytes, true);
        for piece in states.chunks(rng.within(1, 30)) {
            let piece = Piece { states: piece.to_vec(), times: Vec::new() };
            audit.take(&piece).map_err(|answer| format!("answer {answer}"))?;
        }
        let before = |at: usize| at.checked_sub(1).map(|before| states[before]);
        let wanted: Vec<(usize, What, Option<u32>)> =
            (0..states.len()).filter_map(|at| Some((at, wrong(&source.sheet, before(at), states[at])?, before(at)))).collect();
        let found: Vec<(usize, What, Option<u32>)> =
            audit.told.iter().map(|breach| (breach.number, breach.what, breach.before.as_ref().map(|moment| moment.state))).collect();
        let tallied = audit.tallies.iter().all(|(what, tally)| {
            let of: Vec<usize> = wanted.iter().filter(|(_, other, _)| other == what).map(|&(at, ..)| at).collect();
            (of.len(), of.first(), of.last()) == (tally.count, Some(&tally.first), Some(&tally.last))
        });
        if found != wanted || !tallied || audit.account.count() as usize != states.len() {
            return Err(format!("{found:?}, but {wanted:?}\n{states:?}\n{}", print::print(&source.sheet)));
        }
        seen[0] += usize::from(found.is_empty());
        seen[1] += found.len();
    }
    if seen.contains(&0) {
        return Err(format!("saw {seen:?}"));
    }
    Ok(format!("{} logs without a breach, {} breaches in the others", seen[0], seen[1]))
}
