//! Which rules leave no state: as few limits and rules as clash.
//!
//! That there is no such state is the judge's word; which rules forbid it is found here, by leaving out one after the other. What a moment
//! has to meet are the limits, at first the first rules, and after a state the right sides of the step rules that ask something there.

use crate::model::{any_true, is_true, Literal, Rule, Sheet, State};
use crate::text::print;
use std::cell::Cell;

/// So many half-settled states are looked at in all; after that, what is left counts as needed.
pub const PATIENCE: usize = 4_000_000;
/// So many of them for one order of leaving out.
const PATIENCE_AT_ONCE: usize = 200_000;
/// So many demands are named where a strike list is told in full; more are counted.
pub const MOST_NAMED: usize = 24;

/// The demands on a first state.
pub fn on_first(sheet: &Sheet) -> Vec<Rule> {
    (0..sheet.limits.len()).map(Rule::Limit).chain((0..sheet.first.len()).map(Rule::First)).collect()
}

/// The demands on what follows a state.
pub fn after(sheet: &Sheet, state: State) -> Vec<Rule> {
    let asked = (0..sheet.steps.len()).filter(|&step| sheet.steps[step].asks(state));
    (0..sheet.limits.len()).map(Rule::Limit).chain(asked.map(Rule::Step)).collect()
}

/// Demands that clash and of which none can be left out. Two orders of leaving out are tried, and the shorter clash is told.
pub fn smallest(sheet: &Sheet, demands: Vec<Rule>, patience: &Cell<usize>) -> Vec<Rule> {
    let (limits, rules): (Vec<Rule>, Vec<Rule>) = demands.iter().partition(|demand| matches!(demand, Rule::Limit(_)));
    let forward = needed(sheet, demands.clone(), patience, limits.iter().chain(&rules));
    let backward = needed(sheet, demands, patience, limits.iter().rev().chain(rules.iter().rev()));
    if forward.len() < backward.len() {
        forward
    } else {
        backward
    }
}

/// What is left when each demand in turn is left out wherever the rest still clash.
fn needed<'d>(sheet: &Sheet, demands: Vec<Rule>, patience: &Cell<usize>, turns: impl Iterator<Item = &'d Rule>) -> Vec<Rule> {
    let allowed = patience.get().min(PATIENCE_AT_ONCE);
    let mut search = Search { sheet, left: allowed };
    let mut needed = demands;
    for one in turns {
        let without: Vec<Rule> = needed.iter().copied().filter(|other| other != one).collect();
        if search.clash(&without) {
            needed = without;
        }
    }
    patience.set(patience.get() - (allowed - search.left));
    needed
}

/// The demands in words, each line behind this margin; many stand one below the other, and at most so many are named.
pub fn sentence(sheet: &Sheet, demands: &[Rule], margin: &str, most: usize) -> String {
    let names: Vec<String> = demands.iter().map(|&demand| print::named(sheet, demand)).collect();
    let said = match demands {
        [] => "The limits and rules leave no state.".to_string(),
        [Rule::Step(step)] if sheet.steps[*step].right.is_empty() => format!("{} forbids a next moment.", capital(&names[0])),
        [_] => format!("{} can never be met.", capital(&names[0])),
        [_, _] => format!("{} and {} cannot be met together.", capital(&names[0]), names[1]),
        many => {
            let shown = if many.len() > most { most - 1 } else { many.len() };
            let more = match many.len() - shown {
                0 => String::new(),
                more => format!("\n{margin}  .. and {more} more"),
            };
            format!("These cannot be met together:\n{margin}  {}{more}", names[..shown].join(&format!("\n{margin}  ")))
        }
    };
    format!("{margin}{said}\n")
}

/// The text with a capital in front.
pub fn capital(text: &str) -> String {
    text[..1].to_uppercase() + &text[1..]
}

/// A search for a state, letter by letter, that gives up after some patience.
struct Search<'s> {
    sheet: &'s Sheet,
    left: usize,
}

impl Search<'_> {
    /// Is it certain that no state meets all of these?
    fn clash(&mut self, demands: &[Rule]) -> bool {
        let mut named = 0;
        for &demand in demands {
            self.list(demand).iter().for_each(|literal| named |= 1 << (literal.unsigned_abs() - 1));
        }
        !self.some(demands, 0, named)
    }

    fn list(&self, demand: Rule) -> &[Literal] {
        match demand {
            Rule::Limit(at) => &self.sheet.limits[at].list,
            Rule::First(at) => &self.sheet.first[at],
            Rule::Step(at) => &self.sheet.steps[at].right,
            Rule::Promise(at) => std::slice::from_ref(&self.sheet.promises[at]),
        }
    }

    /// May some state that settles the open letters meet all demands? True, too, when patience is at its end.
    fn some(&mut self, demands: &[Rule], state: State, open: State) -> bool {
        if self.left == 0 {
            return true;
        }
        self.left -= 1;
        if !demands.iter().all(|&demand| self.possible(demand, state, open)) {
            return false;
        }
        if open == 0 {
            return true;
        }
        let bit = 1 << open.trailing_zeros();
        self.some(demands, state, open & !bit) || self.some(demands, state | bit, open & !bit)
    }

    /// Can the demand still be met?
    fn possible(&self, demand: Rule, state: State, open: State) -> bool {
        let list = self.list(demand);
        let is_open = |literal: Literal| open >> (literal.unsigned_abs() - 1) & 1 == 1;
        let Rule::Limit(at) = demand else {
            return any_true(list, state) || list.iter().any(|&literal| is_open(literal));
        };
        let settled = list.iter().filter(|&&literal| !is_open(literal) && is_true(literal, state)).count();
        // Of a letter and its opposite, both still open, exactly one will count; to be sure is left to later letters.
        let most = settled + list.iter().filter(|&&literal| is_open(literal)).count();
        let (bound, exactly) = (usize::from(self.sheet.limits[at].bound), self.sheet.limits[at].exactly);
        settled <= bound && (!exactly || most >= bound)
    }
}
