//! What looks odd in a sheet's text and is no fault: one line each. A warning never changes a verdict.

use crate::bytes;
use crate::input::Source;
use crate::model::{is_true, Limit, Literal, Rule, Sheet, State};
use crate::out::Colour;
use crate::proved::{self, Judged};
use crate::reach::{self, Effort, Found};
use crate::text::print;
use plain::rules::Rules;
use std::time::{Duration, Instant};

/// So many lines are given to warnings; the last one may say that there are more.
pub const MOST_SHOWN: usize = 5;
/// So many moves are looked at, for so long, to find the states that can be reached.
const MOVES: usize = 1_000_000;
const PATIENCE: Duration = Duration::from_secs(1);
/// With more livable states than this, a promise is not tried: a warning costs little.
const MOST_LIVABLE: usize = 4_096;

/// Something odd.
#[derive(Clone, Debug, PartialEq, Eq)]
pub struct Warning {
    /// The line, counted from 1.
    pub line: usize,
    /// What is odd.
    pub said: String,
}

/// The warnings for a sheet's text, by lines. A sheet of bytes gets none.
pub fn of(source: &Source, judged: &Judged) -> Vec<Warning> {
    let sheet = &source.sheet;
    let Some(letters_line) = sheet.letters_line else {
        return Vec::new();
    };
    let mut warnings: Vec<Warning> = idle_letters(sheet).map(|said| Warning { line: letters_line, said }).into_iter().collect();
    let odd = idle_limits(sheet).chain(said_twice(sheet)).chain(never_asked(source, judged)).chain(always_kept(sheet, judged));
    warnings.extend(odd.filter_map(|(rule, said)| {
        let line = sheet.written.get(&rule)?.line;
        Some(Warning { line, said: format!("{} {} {said}", rule.kind(), rule.number()) })
    }));
    warnings.sort_by_key(|warning| warning.line);
    warnings
}

/// The warnings as a reader sees them, one a line, at most so many lines.
pub fn show(warnings: &[Warning], file: &str, lines: usize, colour: Colour) -> String {
    let most = if warnings.len() <= lines { warnings.len() } else { lines.saturating_sub(1) };
    let line = |warning: &Warning| format!("{file}:{}: {}: {}\n", warning.line, colour.yellow("warning"), warning.said);
    let shown: String = warnings[..most].iter().map(line).collect();
    match warnings.len() - most {
        0 => shown,
        more if most == 0 => format!("{file}: {more} warnings (--all shows them)\n"),
        more => format!("{shown}{file}: and {more} more warnings (--all shows them)\n"),
    }
}

/// The letters that no rule names, if there are any.
fn idle_letters(sheet: &Sheet) -> Option<String> {
    let limits = sheet.limits.iter().flat_map(|limit| limit.list.iter());
    let steps = sheet.steps.iter().flat_map(|step| step.left.iter().chain(&step.right));
    let named: Vec<Literal> = limits.chain(sheet.first.iter().flatten()).chain(steps).chain(&sheet.promises).copied().collect();
    let is_named = |letter: usize| named.iter().any(|literal| usize::from(literal.unsigned_abs()) == letter + 1);
    let idle: Vec<&str> = (0..sheet.names.len()).filter(|&letter| !is_named(letter)).map(|letter| sheet.names[letter].as_str()).collect();
    match idle.len() {
        0 => None,
        1 => Some(format!("no rule names the letter {}", idle[0])),
        _ => Some(format!("no rule names these letters: {}", idle.join(", "))),
    }
}

/// Limits that hold in every state.
fn idle_limits(sheet: &Sheet) -> impl Iterator<Item = (Rule, String)> + '_ {
    let idle = sheet.limits.iter().enumerate().filter(|(_, limit)| holds_always(limit));
    idle.map(|(at, _)| (Rule::Limit(at), "forbids nothing: it holds in every state".to_string()))
}

/// Does a limit hold whatever the letters are? Of a letter and its opposite in one list, exactly one is true.
fn holds_always(limit: &Limit) -> bool {
    let least = limit.list.iter().filter(|&&literal| literal > 0 && limit.list.contains(&-literal)).count();
    let most = limit.list.len() - least;
    let bound = usize::from(limit.bound);
    most <= bound && (!limit.exactly || least == bound)
}

/// Rules that say what an earlier one of their kind says.
fn said_twice(sheet: &Sheet) -> impl Iterator<Item = (Rule, String)> + '_ {
    let same = |one: Rule, other: Rule| match (one, other) {
        (Rule::Limit(one), Rule::Limit(other)) => sheet.limits[one] == sheet.limits[other],
        (Rule::First(one), Rule::First(other)) => sheet.first[one] == sheet.first[other],
        (Rule::Step(one), Rule::Step(other)) => sheet.steps[one] == sheet.steps[other],
        (Rule::Promise(one), Rule::Promise(other)) => sheet.promises[one] == sheet.promises[other],
        _ => false,
    };
    let rules = sheet.rules();
    let earlier: Vec<(Rule, Rule)> = (0..rules.len())
        .filter_map(|at| rules[..at].iter().find(|&&other| same(rules[at], other)).map(|&other| (rules[at], other)))
        .collect();
    earlier.into_iter().map(|(rule, other)| (rule, format!("says what {}, says", print::numbered(sheet, other))))
}

/// Step rules whose left side holds in no state that can be reached.
fn never_asked(source: &Source, judged: &Judged) -> Vec<(Rule, String)> {
    let asked = |states: &[State], at: usize| states.iter().any(|&state| source.sheet.steps[at].asks(state));
    let open: Vec<usize> = (0..source.sheet.steps.len()).filter(|&at| !asked(&judged.table, at)).collect();
    // Where no state can be reached, no rule is to blame for it; and where there is no room, nothing is known.
    if open.is_empty() || judged.table.is_empty() {
        return Vec::new();
    }
    let Some(reached) = reached(source, judged) else {
        return Vec::new();
    };
    let never = open.into_iter().filter(|&at| !asked(&reached, at));
    never.map(|at| (Rule::Step(at), "never asks: its left side holds in no state that can be reached".to_string())).collect()
}

/// The states that can be reached. Of a sheet that cannot be kept the judge's strike list has them all; else they are looked for here.
fn reached(source: &Source, judged: &Judged) -> Option<Vec<State>> {
    if judged.numbers.answer == 13 {
        return Some(judged.table.clone());
    }
    let rules = Rules::new(&plain::sheet::read(&source.bytes).ok()?);
    match reach::from_first(&source.sheet, &rules, &mut Effort { moves: MOVES, until: Instant::now() + PATIENCE }) {
        Found::All(states) => Some(states.into_iter().collect()),
        Found::Goal | Found::Unknown => None,
    }
}

/// Promises that are kept in every livable state, and without which, by the proved judge's count, no other state is livable.
fn always_kept(sheet: &Sheet, judged: &Judged) -> Vec<(Rule, String)> {
    if judged.numbers.answer != 0 || judged.table.len() > MOST_LIVABLE {
        return Vec::new();
    }
    let kept = |at: usize| judged.table.iter().all(|&state| is_true(sheet.promises[at], state));
    let idle = |at: usize| {
        // Where it is said twice, both go.
        let without = sheet.only(|rule| !matches!(rule, Rule::Promise(other) if sheet.promises[other] == sheet.promises[at]));
        proved::judge(&bytes::write(&without)).numbers.count == judged.numbers.count
    };
    let always = (0..sheet.promises.len()).filter(|&at| kept(at) && idle(at));
    always.map(|at| (Rule::Promise(at), "asks nothing: it is kept in every livable state, with or without it".to_string())).collect()
}
