//! States that can be reached, found in plain code: for what the command tells beside the proved verdicts.
//!
//! States in which the same step rules ask something have the same next states, so these are listed once.

use crate::model::{Sheet, State};
use plain::list::{each_first, each_next};
use plain::rules::Rules;
use std::collections::HashSet;
use std::ops::ControlFlow;
use std::time::Instant;

/// How much may still be looked at: so many moves, and until then.
#[derive(Clone, Copy, Debug)]
pub struct Effort {
    /// So many moves.
    pub moves: usize,
    /// And no longer than this.
    pub until: Instant,
}

impl Effort {
    /// Counts a move; false if there is nothing left.
    fn count(&mut self) -> bool {
        self.moves = self.moves.saturating_sub(1);
        self.moves > 0
    }

    /// Is there nothing left?
    pub fn is_spent(&self) -> bool {
        self.moves == 0 || Instant::now() >= self.until
    }
}

/// What a search for states came to.
#[derive(Clone, Debug, PartialEq, Eq)]
pub enum Found {
    /// These can be reached, and no other.
    All(HashSet<State>),
    /// A state that was looked for can be reached.
    Goal,
    /// The effort was not enough.
    Unknown,
}

/// A search over a sheet's moves.
struct Search<'s, 'g> {
    sheet: &'s Sheet,
    rules: &'s Rules,
    /// A state that is never gone to.
    shut: &'g dyn Fn(State) -> bool,
    /// A state that is looked for.
    goal: &'g dyn Fn(State) -> bool,
    seen: HashSet<State>,
    open: Vec<State>,
    asked: HashSet<Vec<bool>>,
}

/// The states that can be reached from the first states.
pub fn from_first(sheet: &Sheet, rules: &Rules, effort: &mut Effort) -> Found {
    let search = Search::new(sheet, rules, &|_| false, &|_| false);
    let mut first = Vec::new();
    let _ = each_first(rules, |state| {
        first.push(state);
        go_on(effort.count())
    });
    search.run(&first, effort)
}

/// The states that can be reached from these without the shut ones; or that a goal can be reached so.
pub fn from_states(
    sheet: &Sheet,
    rules: &Rules,
    from: &[State],
    shut: &dyn Fn(State) -> bool,
    goal: &dyn Fn(State) -> bool,
    effort: &mut Effort,
) -> Found {
    Search::new(sheet, rules, shut, goal).run(from, effort)
}

impl<'s, 'g> Search<'s, 'g> {
    fn new(sheet: &'s Sheet, rules: &'s Rules, shut: &'g dyn Fn(State) -> bool, goal: &'g dyn Fn(State) -> bool) -> Search<'s, 'g> {
        Search { sheet, rules, shut, goal, seen: HashSet::new(), open: Vec::new(), asked: HashSet::new() }
    }

    /// Goes on from these states until nothing is open, a goal is found or the effort is spent.
    fn run(mut self, from: &[State], effort: &mut Effort) -> Found {
        if from.iter().any(|&state| self.add(state)) {
            return Found::Goal;
        }
        while let Some(state) = self.open.pop() {
            if effort.is_spent() {
                return Found::Unknown;
            }
            let asked = self.sheet.steps.iter().map(|step| step.asks(state)).collect();
            if self.asked.insert(asked) && self.expand(state, effort) {
                return Found::Goal;
            }
        }
        if effort.is_spent() {
            return Found::Unknown;
        }
        Found::All(self.seen)
    }

    /// Lists the next states; true if a goal is among them.
    fn expand(&mut self, state: State, effort: &mut Effort) -> bool {
        let (mut found, rules) = (false, self.rules);
        let _ = each_next(rules, state, |next| {
            found = self.add(next);
            go_on(effort.count() && !found)
        });
        found
    }

    /// Takes a state in, unless it is shut; true if it is a goal.
    fn add(&mut self, state: State) -> bool {
        if (self.shut)(state) {
            return false;
        }
        if self.seen.insert(state) {
            self.open.push(state);
        }
        (self.goal)(state)
    }
}

fn go_on(more: bool) -> ControlFlow<()> {
    if more {
        ControlFlow::Continue(())
    } else {
        ControlFlow::Break(())
    }
}
