//! From a sheet to its text, and single records, literals and states in the text's words.

use crate::model::{Limit, Literal, Rule, Sheet, State, Step};

/// The whole sheet as text; reading it gives the same sheet.
pub fn print(sheet: &Sheet) -> String {
    let lines = sheet.rules().into_iter().map(|one| {
        // The first word of a first rule's line is `first`; in every other kind it is the kind.
        let first_word = one.kind().split(' ').next().unwrap_or_default();
        format!("{first_word} {}\n", rule(sheet, one))
    });
    format!("letters {}\n{}", sheet.names.join(", "), lines.collect::<String>())
}

/// A rule without its first word, in the writer's words if it was read from a text.
pub fn rule(sheet: &Sheet, rule: Rule) -> String {
    match (sheet.written.get(&rule), rule) {
        (Some(written), _) => written.text.clone(),
        (None, Rule::Limit(at)) => limit(sheet, &sheet.limits[at]),
        (None, Rule::First(at)) => first(sheet, &sheet.first[at]),
        (None, Rule::Step(at)) => step(sheet, &sheet.steps[at]),
        (None, Rule::Promise(at)) => literal(sheet, sheet.promises[at]),
    }
}

/// A rule by its number and its line, such as `step 2, line 15`; without a line if it was read from bytes.
pub fn numbered(sheet: &Sheet, rule: Rule) -> String {
    let line = sheet.written.get(&rule).map(|written| format!(", line {}", written.line)).unwrap_or_default();
    format!("{} {}{line}", rule.kind(), rule.number())
}

/// A rule within a sentence: its number and line, its text behind them.
pub fn named(sheet: &Sheet, one: Rule) -> String {
    format!("{} ({})", numbered(sheet, one), rule(sheet, one))
}

/// That a rule is broken, and what it says.
pub fn broken(sheet: &Sheet, one: Rule) -> String {
    let comma = if sheet.written.contains_key(&one) { "," } else { "" };
    format!("{}{comma} is broken: {}", numbered(sheet, one), rule(sheet, one))
}

/// A limit without its first word.
fn limit(sheet: &Sheet, limit: &Limit) -> String {
    let kind = if limit.exactly { "exactly" } else { "at most" };
    format!("{kind} {} of {}", limit.bound, list(sheet, &limit.list, ", ", "nothing"))
}

/// A first rule without its first word.
fn first(sheet: &Sheet, rule: &[Literal]) -> String {
    list(sheet, rule, " or ", "nothing")
}

/// A step rule without its first word.
fn step(sheet: &Sheet, step: &Step) -> String {
    format!("{} leads to {}", list(sheet, &step.left, " and ", "always"), list(sheet, &step.right, " or ", "nothing"))
}

/// A literal.
pub fn literal(sheet: &Sheet, literal: Literal) -> String {
    let name = &sheet.names[usize::from(literal.unsigned_abs()) - 1];
    if literal > 0 {
        name.clone()
    } else {
        format!("not {name}")
    }
}

/// A list, joined, or the word for an empty one.
fn list(sheet: &Sheet, list: &[Literal], by: &str, empty: &str) -> String {
    if list.is_empty() {
        return empty.to_string();
    }
    list.iter().map(|&member| literal(sheet, member)).collect::<Vec<_>>().join(by)
}

/// A state by the letters that hold in it; a number that is no state of the sheet stays a number.
pub fn state(sheet: &Sheet, state: State) -> String {
    if !sheet.has(state) {
        return state.to_string();
    }
    let names: Vec<&str> = holding(sheet, state).collect();
    if names.is_empty() {
        "none".to_string()
    } else {
        names.join(", ")
    }
}

/// The names of the letters that hold in a state.
pub fn holding(sheet: &Sheet, state: State) -> impl Iterator<Item = &str> {
    sheet.names.iter().enumerate().filter(move |(at, _)| state >> at & 1 == 1).map(|(_, name)| name.as_str())
}
