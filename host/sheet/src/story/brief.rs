//! Why a sheet cannot be kept, in words that fit a screen.

use crate::brief::{Brief, DeadEnd, Fight, Unkept};
use crate::model::{Rule, Sheet};
use crate::plan::Trial;
use crate::story::{clash, count, fight};
use crate::text::print;

/// So many lines are given to the rules that fight, and to those behind a state; the last one may say that there are more.
const MOST_FIGHTING: usize = 5;
const MOST_BEHIND: usize = 4;

/// So many rules are named behind a promise where it is not certain that they are needed.
const MOST_UNCERTAIN: usize = 12;

/// The reasons, one below the other, an empty line before each. With all other lines of the verdict there are at most 24.
pub fn tell(sheet: &Sheet, brief: &Brief) -> String {
    let mut parts = vec![fighting(sheet, &brief.fight)];
    if let Some(rules) = &brief.no_first {
        parts.push(format!("There is no first state.\n{}", clash::sentence(sheet, rules, "  ", MOST_FIGHTING)));
    }
    parts.extend(brief.dead_end.as_ref().map(|end| dead_end(sheet, end)));
    parts.extend(brief.unkept.as_ref().map(|unkept| self::unkept(sheet, unkept)));
    parts.iter().filter(|part| !part.is_empty()).map(|part| format!("\n{part}")).collect()
}

/// The first rules of a list, one a line; if there are too many, how many more.
fn first_of(sheet: &Sheet, rules: &[Rule], most: usize) -> String {
    if rules.len() <= most {
        return fight::listed(sheet, rules.iter().copied());
    }
    fight::listed(sheet, rules[..most - 1].iter().copied()) + &format!("  .. and {} more\n", rules.len() - most + 1)
}

/// The rules that fight, or why they are not known.
fn fighting(sheet: &Sheet, found: &Fight) -> String {
    match found {
        Fight::NotAsked | Fight::Unaccepted(_) => String::new(),
        Fight::Rules(chosen) if chosen.is_empty() => format!("{} The proved check accepts this.\n", fight::none_to_blame(sheet)),
        Fight::Rules(chosen) => {
            let rules: Vec<Rule> = chosen.iter().map(|&rule| Rule::Step(rule)).collect();
            format!("{} (the proved check accepts this):\n{}", fight::head(sheet, chosen.len()), first_of(sheet, &rules, MOST_FIGHTING))
        }
        Fight::Crowded(trial) => format!("Which rules fight is not known: {}\n", no_room(sheet, trial)),
        Fight::Stopped(0) => String::new(),
        Fight::Stopped(seconds) => format!("The rules that fight were not found within {seconds} s.\n"),
    }
}

/// Why there was no room to find the rules that fight.
fn no_room(sheet: &Sheet, trial: &Trial) -> String {
    let Some(rule) = trial.left_out else {
        return "there is no room to judge the sheet.".to_string();
    };
    let dropped = match trial.dropped.len() {
        0 => String::new(),
        1 => " and another rule".to_string(),
        many => format!(" and {many} others"),
    };
    format!("without {}{dropped}, there is no room to judge.", print::named(sheet, Rule::Step(rule)))
}

/// The first state with no way on, and the rules that forbid one.
pub fn dead_end(sheet: &Sheet, end: &DeadEnd) -> String {
    let state = print::state(sheet, end.state);
    let head = match end.states {
        1 => format!("From one state there is no way on: {state}"),
        many => format!("From {} there is no way on. The first of them: {state}", count(many, "state")),
    };
    format!("{head}\n{}", clash::sentence(sheet, &end.rules, "  ", MOST_BEHIND))
}

/// The first promise that fails, and the rules that hold the states where it does.
pub fn unkept(sheet: &Sheet, unkept: &Unkept) -> String {
    let (name, state) = (print::named(sheet, Rule::Promise(unkept.promise)), print::state(sheet, unkept.state));
    let head = match unkept.states {
        1 => format!("From one state {name} can no longer be kept: {state}"),
        many => format!("From {} {name} can no longer be kept. The first of them: {state}", count(many, "state")),
    };
    let rules: Vec<Rule> = unkept.rules.iter().map(|&rule| Rule::Step(rule)).collect();
    let them = if unkept.states == 1 { "it" } else { "them" };
    if !unkept.certain && rules.len() > MOST_UNCERTAIN {
        return format!("{head}\n  Which rules let no way lead from {them} to an unstruck state that keeps it was not found.\n");
    }
    let perhaps = if unkept.certain { "" } else { " (perhaps not all are needed)" };
    let why = match rules.len() {
        0 => format!("  The limits alone let no way lead from {them} to an unstruck state that keeps it.\n"),
        1 => format!("  This rule lets no way lead from {them} to an unstruck state that keeps it{perhaps}:\n"),
        _ => format!("  These rules let no way lead from {them} to an unstruck state that keeps it{perhaps}:\n"),
    };
    format!("{head}\n{why}{}", indented(&first_of(sheet, &rules, MOST_BEHIND)))
}

/// Lines, each two places further in.
fn indented(lines: &str) -> String {
    lines.lines().map(|line| format!("  {line}\n")).collect()
}
