//! The strike list as a story by rounds.

use crate::model::{Rule, Sheet, State};
use crate::paper::REASONS;
use crate::story::{clash, count};
use crate::text::print;
use plain::list::next_states;
use plain::rules::Rules;
use std::cell::Cell;
use std::collections::BTreeMap;

/// More rounds than this are cut.
const MOST_ROUNDS: usize = 12;
/// More states of one reason than this are cut.
const MOST_STATES: usize = 12;
/// More ways on than this are not told apart.
const MOST_WAYS: usize = 4;

/// A strike list, the rules behind it, and how much of it is told.
struct Story<'s> {
    sheet: &'s Sheet,
    rules: &'s Rules,
    words: BTreeMap<State, u32>,
    all: bool,
    patience: Cell<usize>,
}

/// Tells a strike list of the judge.
pub fn tell(sheet: &Sheet, rules: &Rules, states: &[State], words: &[u32], all: bool) -> String {
    if states.is_empty() {
        let clash = clash::smallest(sheet, clash::on_first(sheet), &Cell::new(clash::PATIENCE));
        return format!("  There is no first state.\n{}", clash::sentence(sheet, &clash, "  ", clash::MOST_NAMED));
    }
    let story = Story {
        sheet,
        rules,
        words: states.iter().copied().zip(words.iter().copied()).collect(),
        all,
        patience: Cell::new(clash::PATIENCE),
    };
    let mut groups: Vec<(u32, Vec<State>)> = Vec::new();
    for (&state, &word) in states.iter().zip(words) {
        match groups.last_mut() {
            Some((last, group)) if *last == word => group.push(state),
            _ => groups.push((word, vec![state])),
        }
    }
    story.rounds(&groups) + "\n  No state is left, so no run can obey this sheet for ever.\n"
}

impl Story<'_> {
    /// The rounds in turn; of many, the first and the last.
    fn rounds(&self, groups: &[(u32, Vec<State>)]) -> String {
        let last = groups.last().map_or(0, |(word, _)| word / REASONS) as usize;
        let (mut told, mut round, mut skipped) = (String::new(), 0, 0);
        for (word, states) in groups {
            let this = (word / REASONS) as usize;
            if !self.all && last > MOST_ROUNDS && this >= MOST_ROUNDS && this < last {
                skipped += states.len();
                round = this;
                continue;
            }
            if skipped > 0 {
                let rounds = count(last - MOST_ROUNDS, "more round");
                told += &format!("\n  .. {rounds} with {} (--all shows them)\n", count(skipped, "state"));
                skipped = 0;
            }
            if this != round {
                told += &format!("\n  Round {this}\n");
                round = this;
            }
            told += &self.group(*word, states);
        }
        told
    }

    /// The states of one word, and why they are struck.
    fn group(&self, word: u32, states: &[State]) -> String {
        let these = match states.len() {
            1 => "this state".to_string(),
            many => format!("these {}", count(many, "state")),
        };
        match (word % REASONS, word / REASONS) {
            (0, 1) => format!("    From {these} there is no way on:\n{}", self.dead_ends(states)),
            (0, _) => format!("    From {these} every way on leads to a struck state:\n{}", self.led_astray(states)),
            (promise, _) => {
                let name = print::named(self.sheet, Rule::Promise(promise as usize - 1));
                let shown = self.shown(states).map(|&state| format!("      {}\n", print::state(self.sheet, state)));
                let shown: String = shown.collect();
                format!("    From {these} {name} can no longer be kept:\n{shown}{}", self.more(states))
            }
        }
    }

    fn shown<'a>(&self, states: &'a [State]) -> impl Iterator<Item = &'a State> {
        states.iter().take(if self.all { states.len() } else { MOST_STATES })
    }

    fn more(&self, states: &[State]) -> String {
        match states.len().saturating_sub(self.shown(states).count()) {
            0 => String::new(),
            more => format!("      .. {} (--all shows them)\n", count(more, "more state")),
        }
    }

    /// States without a next state, gathered by the rules that forbid one.
    fn dead_ends(&self, states: &[State]) -> String {
        let mut found: BTreeMap<Vec<usize>, String> = BTreeMap::new();
        let mut gathered: Vec<(String, Vec<State>)> = Vec::new();
        for &state in self.shown(states) {
            let asked: Vec<usize> = (0..self.sheet.steps.len()).filter(|&step| self.sheet.steps[step].asks(state)).collect();
            let why = found.entry(asked).or_insert_with(|| {
                let clash = clash::smallest(self.sheet, clash::after(self.sheet, state), &self.patience);
                clash::sentence(self.sheet, &clash, "        ", clash::MOST_NAMED)
            });
            match gathered.iter_mut().find(|(other, _)| other == why) {
                Some((_, group)) => group.push(state),
                None => gathered.push((why.clone(), vec![state])),
            }
        }
        let told = gathered.iter().map(|(why, group)| {
            let names: String = group.iter().map(|&state| format!("      {}\n", print::state(self.sheet, state))).collect();
            format!("{names}{why}")
        });
        told.collect::<String>() + &self.more(states)
    }

    /// States whose next states were all struck before.
    fn led_astray(&self, states: &[State]) -> String {
        let told = self.shown(states).map(|&state| {
            let next = next_states(self.rules, state);
            let ways: Vec<String> = next
                .iter()
                .take(MOST_WAYS)
                .map(|&to| format!("{} (round {})", print::state(self.sheet, to), self.words.get(&to).map_or(0, |word| word / REASONS)))
                .collect();
            let more = match next.len().saturating_sub(MOST_WAYS) {
                0 => String::new(),
                more => format!("; and {more} more"),
            };
            format!("      {} -> {}{more}\n", print::state(self.sheet, state), ways.join("; "))
        });
        told.collect::<String>() + &self.more(states)
    }
}
