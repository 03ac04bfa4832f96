//! Promises of more than one letter, and words of time.

use super::words::{free_name, literals, opposite, opposites};
use super::{limit, Instead};

/// What to write instead of `promise` and these words.
pub fn of(rest: &[&str], names: &[String]) -> Option<Instead> {
    if let Some(at) = rest.iter().position(|&word| word == "leads") {
        let right = &rest[at + 1..];
        return later(&rest[..at], right.strip_prefix(&["to"]).unwrap_or(right), names);
    }
    match rest.split_first()? {
        (&"always", more) => limit::at_every_moment(false, more, names),
        (&"never", more) => limit::at_every_moment(true, more, names),
        (&("sometime" | "sometimes" | "eventually"), more) => again_and_again(more, names),
        (&"again", more) if more.starts_with(&["and", "again"]) => again_and_again(&more[2..], names),
        _ => several(rest, names),
    }
}

/// Several letters where a promise has one.
fn several(rest: &[&str], names: &[String]) -> Option<Instead> {
    if let Some(one_of) = literals(rest, &["or"], names) {
        return some(&one_of.list, names);
    }
    all(&literals(rest, &["and", ","], names)?.list, names)
}

/// Again and again some letter of the list: a helper letter that can hold only where one of them does.
fn some(list: &[String], names: &[String]) -> Option<Instead> {
    (list.len() > 1).then_some(())?;
    let helper = free_name("either", names);
    let why = format!("a promise is one letter; let one more letter, `{helper}`, hold only where one of these is true, and promise it:");
    let lines = [
        format!("letters {}, {helper}", names.join(", ")),
        format!("limit at most {} of {helper}, {}", list.len(), opposites(list)),
        format!("promise {helper}"),
    ];
    Instead::new(why, lines)
}

/// Again and again each letter of the list, or all of them at one moment.
fn all(list: &[String], names: &[String]) -> Option<Instead> {
    (list.len() > 1).then_some(())?;
    let helper = free_name("all", names);
    let each = list.iter().map(|literal| format!("promise {literal}"));
    let or = ["# or, for all at one moment, with one more letter:".to_string(), format!("letters {}, {helper}", names.join(", "))];
    let at_once = list.iter().map(|literal| format!("limit at most 1 of {helper}, {}", opposite(literal)));
    let lines = each.chain(or).chain(at_once).chain([format!("promise {helper}")]);
    Instead::new("a promise is one letter; for each of them again and again, at moments of its own:", lines)
}

/// Whenever all of the left side holds, some of the right side at some later moment: a helper letter holds until it comes.
pub fn later(left: &[&str], right: &[&str], names: &[String]) -> Option<Instead> {
    let (left, right) = (literals(left, &["and"], names)?.list.join(" and "), literals(right, &["or"], names)?.list.join(" or "));
    let helper = free_name("owed", names);
    let lines = [
        format!("letters {}, {helper}", names.join(", ")),
        format!("step {left} leads to {right} or {helper}"),
        format!("step {helper} leads to {right} or {helper}"),
        format!("promise not {helper}"),
    ];
    Instead::new(format!("what must come at some later moment: let one more letter, `{helper}`, hold until it comes:"), lines)
}

/// What must be true again and again.
pub fn again_and_again(rest: &[&str], names: &[String]) -> Option<Instead> {
    let found = literals(rest, &[], names)?;
    Instead::new("a promise says that by itself, again and again:", found.list.iter().map(|literal| format!("promise {literal}")))
}
