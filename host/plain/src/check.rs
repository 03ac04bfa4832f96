//! The two checkers.
//!
//! They rest on the sheet reader, the rules and the listing of states, never on
//! the judge. Each returns 1 to 10 for a bad sheet, 14 for a paper that is not
//! accepted, and 0 for one that is.

use crate::hash::{QuickMap, StateMap};
use crate::list::Lister;
use crate::rules::{Asked, Rules};
use crate::sheet;
use crate::State;
use std::ops::ControlFlow;

const ACCEPTED: u32 = 0;
const NOT_ACCEPTED: u32 = 14;

/// Checks a run: `states` from moment 0, read on from the last to number `a`.
pub fn check_run(sheet: &[u8], states: &[State], a: u32) -> u32 {
    with_rules(sheet, |rules| run_is_right(rules, states, a))
}

/// Checks a strike list: `states` and the word of each.
pub fn check_strikes(sheet: &[u8], states: &[State], words: &[u32]) -> u32 {
    with_rules(sheet, |rules| strikes_are_right(&mut Lister::new(rules), states, words))
}

/// How many branches the strike checker's listings look at; none for a bad
/// sheet or where nothing has to be listed.
pub fn strikes_nodes(sheet: &[u8], states: &[State], words: &[u32]) -> u64 {
    let Ok(sheet) = sheet::read(sheet) else {
        return 0;
    };
    let rules = Rules::new(&sheet);
    let mut lister = Lister::new(&rules);
    strikes_are_right(&mut lister, states, words);
    lister.nodes
}

/// As [`check_run`], each state four bytes, big-endian.
pub fn check_run_bytes(sheet: &[u8], states: &[u8], a: u32) -> u32 {
    with_rules(sheet, |rules| match paper_states(states) {
        Some(states) => run_is_right(rules, &states, a),
        None => false,
    })
}

/// As [`check_strikes`], each state and word four bytes, big-endian.
pub fn check_strikes_bytes(sheet: &[u8], states: &[u8], words: &[u8]) -> u32 {
    with_rules(sheet, |rules| match (paper_states(states), paper_words(words)) {
        (Some(states), Some(words)) => strikes_are_right(&mut Lister::new(rules), &states, &words),
        _ => false,
    })
}

/// The sheet's faults come before the paper's.
fn with_rules(sheet: &[u8], accepts: impl FnOnce(&Rules) -> bool) -> u32 {
    match sheet::read(sheet) {
        Err(fault) => fault.number,
        Ok(sheet) if accepts(&Rules::new(&sheet)) => ACCEPTED,
        Ok(_) => NOT_ACCEPTED,
    }
}

/// The states that bytes make up, unless some are left over.
fn paper_states(bytes: &[u8]) -> Option<Vec<State>> {
    let (states, rest) = bytes.as_chunks();
    rest.is_empty().then(|| states.iter().map(|&state| State::from_be_bytes(state)).collect())
}

/// The words that bytes make up, unless some are left over.
fn paper_words(bytes: &[u8]) -> Option<Vec<u32>> {
    let (words, rest) = bytes.as_chunks();
    rest.is_empty().then(|| words.iter().map(|&word| u32::from_be_bytes(word)).collect())
}

fn run_is_right(rules: &Rules, states: &[State], a: u32) -> bool {
    let (Some(&first), Some(&last)) = (states.first(), states.last()) else {
        return false;
    };
    let Some(circle) = usize::try_from(a).ok().and_then(|a| states.get(a..)) else {
        return false;
    };
    // Empty when a equals b.
    let Some(&back) = circle.first() else {
        return false;
    };
    rules.first(first)
        && states.iter().all(|&state| rules.lawful(state))
        && states.windows(2).all(|pair| rules.follows(pair[0], pair[1]))
        && rules.follows(last, back)
        && (0..rules.promises())
            .all(|promise| circle.iter().any(|&state| rules.kept(promise, state)))
}

/// The listed words that a state's next states have.
#[derive(Clone, Copy)]
enum Latest {
    /// There are no next states.
    Nothing,
    /// All are listed; this is the greatest of their words.
    Word(u32),
    /// Some next state is not listed.
    Unlisted,
}

fn strikes_are_right(lister: &mut Lister<'_>, states: &[State], words: &[u32]) -> bool {
    let rules = lister.rules;
    if states.len() != words.len()
        || !words.is_sorted()
        || !states.iter().all(|&state| rules.lawful(state))
    {
        return false;
    }
    // What each entry's reason asks of the entry itself.
    let reason_fits = |(&state, &word): (&State, &u32)| match (word % 32) as usize {
        0 => true,
        reason => reason <= rules.promises() && !rules.kept(reason - 1, state),
    };
    if !states.iter().zip(words).all(reason_fits) {
        return false;
    }
    // A state may be listed twice; as words never fall, its first word is its
    // least, and that is the one that matters to the states before it.
    let mut least = StateMap::new();
    for (&state, &word) in states.iter().zip(words) {
        least.insert_if_new(state, word);
    }
    // No listing goes past the first unlisted state, so none hands over more
    // states than are listed, and one.
    let listed = lister.first(|state| match least.get(state) {
        Some(_) => ControlFlow::Continue(()),
        None => ControlFlow::Break(()),
    });
    if listed.is_break() {
        return false;
    }
    // States that ask for the same right sides have the same next states.
    let mut known: QuickMap<Asked, Latest> = QuickMap::default();
    states.iter().zip(words).all(|(&state, &word)| {
        let asked = rules.asked(state);
        let latest = known.entry(asked).or_insert_with(|| latest(lister, &least, asked));
        match *latest {
            Latest::Nothing => true,
            Latest::Word(next) if word % 32 == 0 => next < word,
            Latest::Word(next) => next <= word,
            Latest::Unlisted => false,
        }
    })
}

/// The greatest word among the next states of those that ask this.
fn latest(lister: &mut Lister<'_>, least: &StateMap, asked: Asked) -> Latest {
    let mut latest = Latest::Nothing;
    let listed = lister.asked(asked, |state| match least.get(state) {
        Some(word) => {
            latest = match latest {
                Latest::Word(before) => Latest::Word(before.max(word)),
                _ => Latest::Word(word),
            };
            ControlFlow::Continue(())
        }
        None => ControlFlow::Break(()),
    });
    if listed.is_break() {
        return Latest::Unlisted;
    }
    latest
}
