//! Why a strike list is not accepted: the first thing wrong, in the order of document 01's sentence.

use crate::explain::unlawful;
use crate::model::{is_true, Rule, Sheet, State};
use crate::paper::{print::heading, REASONS};
use crate::text::print;
use plain::list::{each_first, each_next};
use plain::rules::Rules;
use std::collections::HashMap;
use std::ops::ControlFlow;

/// A strike list beside its sheet.
struct List<'s> {
    sheet: &'s Sheet,
    rules: &'s Rules,
    states: &'s [State],
    words: &'s [u32],
    /// The least word with which each state is listed.
    least: HashMap<State, u32>,
}

/// The first reason against a strike list.
pub fn reason(sheet: &Sheet, rules: &Rules, states: &[State], words: &[u32]) -> Option<Vec<String>> {
    let mut least: HashMap<State, u32> = HashMap::new();
    for (&state, &word) in states.iter().zip(words) {
        least.entry(state).and_modify(|there| *there = word.min(*there)).or_insert(word);
    }
    let list = List { sheet, rules, states, words, least };
    list.falling().or_else(|| list.bad_entry()).or_else(|| list.unlisted_first()).or_else(|| list.open_entry())
}

impl List<'_> {
    /// The first place where the words fall.
    fn falling(&self) -> Option<Vec<String>> {
        let at = (1..self.words.len()).find(|&at| self.words[at] < self.words[at - 1])?;
        let before = heading(self.words[at - 1]);
        Some(self.against(at, format!("it stands behind `{before}`; rounds, and the reasons in a round, must not fall")))
    }

    /// The first entry that is no lawful state, or whose reason is no promise of the sheet.
    fn bad_entry(&self) -> Option<Vec<String>> {
        (0..self.states.len()).find_map(|at| {
            let reason = (self.words[at] % REASONS) as usize;
            let promises = self.sheet.promises.len();
            let said = unlawful(self.sheet, self.states[at]).map(|said| format!("it is no lawful state: {said}"));
            let said = said.or_else(|| (reason > promises).then(|| format!("there is no promise {reason}; the sheet has {promises}")))?;
            Some(self.against(at, said))
        })
    }

    /// The least first state that is not listed.
    fn unlisted_first(&self) -> Option<Vec<String>> {
        let mut missing = None;
        let _ = each_first(self.rules, |state| stop_at(&mut missing, state, !self.least.contains_key(&state)));
        missing.map(|state| vec![format!("this first state is not listed: {}", print::state(self.sheet, state))])
    }

    /// The first entry that is not struck rightly.
    fn open_entry(&self) -> Option<Vec<String>> {
        (0..self.states.len()).find_map(|at| self.kept_here(at).or_else(|| self.way_out(at)))
    }

    /// The entry's promise is true in its own state.
    fn kept_here(&self, at: usize) -> Option<Vec<String>> {
        let promise = ((self.words[at] % REASONS) as usize).checked_sub(1)?;
        let &literal = self.sheet.promises.get(promise)?;
        let name = print::named(self.sheet, Rule::Promise(promise));
        is_true(literal, self.states[at]).then(|| self.against(at, format!("{name} is kept in this very state")))
    }

    /// A next state of the entry that is not listed early enough.
    fn way_out(&self, at: usize) -> Option<Vec<String>> {
        let (state, word) = (self.states[at], self.words[at]);
        // Struck for no way on, the next states stand before; struck for a promise, they may stand beside.
        let early =
            |next: &State| self.least.get(next).is_some_and(|&there| if word % REASONS == 0 { there < word } else { there <= word });
        let mut out = None;
        let _ = each_next(self.rules, state, |next| stop_at(&mut out, next, !early(&next)));
        let next = out?;
        let (name, needed) = (print::state(self.sheet, next), if word % REASONS == 0 { "before" } else { "with or before" });
        let said = match self.least.get(&next) {
            None => format!("it can move to a state that is not listed: {name}"),
            Some(&there) => {
                format!("it can move to a state that is not listed {needed} `{}`: {name} (`{}`)", heading(word), heading(there))
            }
        };
        Some(self.against(at, said))
    }

    /// An entry by its place, counted from 1, its state and its heading, and what is said against it.
    fn against(&self, at: usize, said: String) -> Vec<String> {
        let entry = format!("entry {}: {} (`{}`)", at + 1, print::state(self.sheet, self.states[at]), heading(self.words[at]));
        vec![entry, format!("  {said}")]
    }
}

/// Notes a state and stops there, if it is the one looked for.
fn stop_at(found: &mut Option<State>, state: State, here: bool) -> ControlFlow<()> {
    if here {
        *found = Some(state);
        return ControlFlow::Break(());
    }
    ControlFlow::Continue(())
}
