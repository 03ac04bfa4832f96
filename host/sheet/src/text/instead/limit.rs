//! Limits in other words: fewer than, at least, more than, all of, none of, never.

use super::words::{literals, number, opposites};
use super::Instead;

/// How lists in limits are joined by those who do not use commas.
const JOINED: [&str; 3] = [",", "and", "or"];

/// How many of a list, in words of the user's own.
enum Bound {
    Exactly(usize),
    AtMost(usize),
    AtLeast(usize),
    /// Fewer than this.
    Fewer(usize),
    /// A number without a word before it.
    Bare(usize),
    All,
    Some,
}

/// The words for each bound; a number stands behind them.
const WORDS: [(&[&str], fn(usize) -> Bound); 24] = [
    (&["exactly"], Bound::Exactly),
    (&["only"], Bound::Exactly),
    (&["just"], Bound::Exactly),
    (&["at", "most"], Bound::AtMost),
    (&["most"], Bound::AtMost),
    (&["up", "to"], Bound::AtMost),
    (&["no", "more", "than"], Bound::AtMost),
    (&["not", "more", "than"], Bound::AtMost),
    (&["maximum"], Bound::AtMost),
    (&["max"], Bound::AtMost),
    (&["<="], Bound::AtMost),
    (&["at", "least"], Bound::AtLeast),
    (&["no", "fewer", "than"], Bound::AtLeast),
    (&["not", "fewer", "than"], Bound::AtLeast),
    (&["no", "less", "than"], Bound::AtLeast),
    (&["minimum"], Bound::AtLeast),
    (&["min"], Bound::AtLeast),
    (&[">="], Bound::AtLeast),
    (&["more", "than"], more_than),
    (&["over"], more_than),
    (&["fewer", "than"], Bound::Fewer),
    (&["less", "than"], Bound::Fewer),
    (&["under"], Bound::Fewer),
    (&["below"], Bound::Fewer),
];

fn more_than(number: usize) -> Bound {
    Bound::AtLeast(number + 1)
}

/// What to write instead of `limit` and these words.
pub fn of(rest: &[&str], names: &[String]) -> Option<Instead> {
    let (bound, rest) = bound(rest)?;
    let list = literals(rest.strip_prefix(&["of"]).unwrap_or(rest), &JOINED, names)?.list;
    let all = list.join(", ");
    match bound {
        Bound::Exactly(number) => Instead::new("this is how it is written:", [format!("limit exactly {number} of {all}")]),
        Bound::AtMost(number) => Instead::new("this is how it is written:", [format!("limit at most {number} of {all}")]),
        Bound::AtLeast(number) => at_least(number, &list),
        Bound::All => Instead::new("all of them, at every moment:", [format!("limit exactly {} of {all}", list.len())]),
        Bound::Some => at_least(1, &list),
        Bound::Fewer(0) => None,
        Bound::Fewer(number) => Instead::new(
            format!("`at most {number}` allows {number}, and fewer than {number} does not; write the one that is meant:"),
            [
                format!("limit at most {} of {all}  # fewer than {number}", number - 1),
                format!("limit at most {number} of {all}  # {number} or fewer"),
            ],
        ),
        Bound::Bare(number) => Instead::new(
            "say which is meant:",
            [format!("limit exactly {number} of {all}"), format!("limit at most {number} of {all}  # {number} or fewer")],
        ),
    }
}

/// The bound at the front of these words, and what stands behind it.
fn bound<'w>(words: &'w [&'w str]) -> Option<(Bound, &'w [&'w str])> {
    for (front, make) in WORDS {
        if let Some([count, rest @ ..]) = words.strip_prefix(front) {
            return Some((make(number(count)?), rest));
        }
    }
    match words {
        ["all", rest @ ..] | ["every", rest @ ..] => Some((Bound::All, rest)),
        ["none", rest @ ..] | ["no", rest @ ..] => Some((Bound::Exactly(0), rest)),
        ["some", rest @ ..] | ["any", rest @ ..] => Some((Bound::Some, rest)),
        [count, "of", rest @ ..] => Some((Bound::Bare(number(count)?), rest)),
        _ => None,
    }
}

/// At least so many of a list: at most the rest of their opposites.
fn at_least(number: usize, list: &[String]) -> Option<Instead> {
    let rest = list.len().checked_sub(number)?;
    Instead::new(
        format!("at least {number} of {} is at most {rest} of their opposites:", list.len()),
        [format!("limit at most {rest} of {}", opposites(list))],
    )
}

/// `limit` and literals, without a bound: they are so at every moment. What `not a and b` denies, nobody can say.
pub fn bare(rest: &[&str], names: &[String]) -> Option<Instead> {
    if rest.len() > 2 && rest.contains(&"not") {
        return None;
    }
    at_every_moment(false, rest, names)
}

/// `always` or `never` and literals: what is so at every moment is a limit.
pub fn at_every_moment(never: bool, rest: &[&str], names: &[String]) -> Option<Instead> {
    let why = "what is so at every moment is a limit:";
    if let Some(all) = literals(rest, &["and", ","], names).map(|found| found.list) {
        let (many, list) = (all.len(), all.join(", "));
        return match (never, many) {
            (true, 1) => Instead::new(why, [format!("limit exactly 0 of {list}")]),
            (true, _) => Instead::new(why, [format!("limit at most {} of {list}", many - 1)]),
            (false, _) => Instead::new(why, [format!("limit exactly {many} of {list}")]),
        };
    }
    let some = literals(rest, &["or"], names)?.list;
    match never {
        true => Instead::new(why, [format!("limit exactly 0 of {}", some.join(", "))]),
        false => Instead::new(why, [format!("limit at most {} of {}", some.len() - 1, opposites(&some))]),
    }
}
