//! Step rules with the wrong joining word on a side, another arrow, or without their first word.

use super::words::{literals, opposite};
use super::{promise, Instead};

/// Words and signs that people write for `leads to`.
const ARROWS: [&str; 6] = ["->", "-->", "=>", "\u{2192}", "\u{21d2}", "leads"];
/// Words for some later moment.
const LATER: [&str; 4] = ["eventually", "sometime", "sometimes", "later"];
/// Words that say "if .. then": whether now or at the next moment, they do not say.
const IFS: [&str; 3] = ["if", "when", "whenever"];

/// What to write instead of `step` and these words.
pub fn of(rest: &[&str], names: &[String]) -> Option<Instead> {
    match rest.split_first()? {
        (first, more) if IFS.contains(first) => if_then(more, names),
        _ if rest.contains(&"implies") => if_then(rest, names),
        _ => arrow(rest, names),
    }
}

/// Two sides with an arrow between them: a line for each part that must stand by itself.
fn arrow(rest: &[&str], names: &[String]) -> Option<Instead> {
    let at = rest.iter().position(|word| ARROWS.contains(word))?;
    let behind = &rest[at + 1..];
    let behind = behind.strip_prefix(&["to"]).unwrap_or(behind);
    if let [word, right @ ..] = behind {
        if LATER.contains(word) {
            return promise::later(&rest[..at], right, names);
        }
    }
    let (lefts, rights) = (lefts(&rest[..at], names)?, rights(behind, names)?);
    let lines: Vec<String> =
        lefts.iter().flat_map(|left| rights.iter().map(move |right| format!("step {left} leads to {right}"))).collect();
    let why = match (lefts.len() > 1, rights.len() > 1) {
        (true, _) => "the left side is joined by `and`; for `or` write a line for each:",
        (_, true) => "the right side is joined by `or`; for `and` write a line for each:",
        _ => "this is how it is written:",
    };
    Instead::new(why, lines)
}

/// The left sides that stand for a left side: one, or one for each literal of an `or`.
fn lefts(words: &[&str], names: &[String]) -> Option<Vec<String>> {
    if words.is_empty() || words == ["always"] {
        return Some(vec!["always".to_string()]);
    }
    match literals(words, &["and", ","], names) {
        Some(all) => Some(vec![all.list.join(" and ")]),
        None => Some(literals(words, &["or"], names)?.list),
    }
}

/// The right sides that stand for a right side: one, or one for each literal of an `and`.
fn rights(words: &[&str], names: &[String]) -> Option<Vec<String>> {
    if words == ["nothing"] {
        return Some(vec!["nothing".to_string()]);
    }
    match literals(words, &["or"], names) {
        Some(one) => Some(vec![one.list.join(" or ")]),
        None => Some(literals(words, &["and", ","], names)?.list),
    }
}

/// `A then B`, `A implies B`: a step rule if B comes next, a limit if it is so at the same moment.
fn if_then(rest: &[&str], names: &[String]) -> Option<Instead> {
    let at = rest.iter().position(|word| ["then", "implies", ","].contains(word) || ARROWS.contains(word))?;
    let behind = &rest[at + 1..];
    let behind = behind.strip_prefix(&["then"]).or(behind.strip_prefix(&["to"])).unwrap_or(behind);
    let (left, right) = (literals(&rest[..at], &["and"], names)?.list, literals(behind, &["or"], names)?.list);
    let forbidden: Vec<String> = left.iter().cloned().chain(right.iter().map(|literal| opposite(literal))).collect();
    let lines = [
        format!("step {} leads to {}  # at the next moment", left.join(" and "), right.join(" or ")),
        format!("limit at most {} of {}  # at the same moment", forbidden.len() - 1, forbidden.join(", ")),
    ];
    Instead::new("say when: a step rule is about the next moment, a limit about the same one:", lines)
}
