//! What to write instead of a line that the form does not have: likely sentences, met by name. Every line that is proposed is a line of the
//! form; where a sentence is not known, nothing is proposed.

mod limit;
mod promise;
mod step;
mod words;

use crate::text::parse;
use words::{literals, Literals};

/// Lines to write instead, with words of why before them.
#[derive(Clone, Debug, PartialEq, Eq)]
pub struct Instead {
    /// Why, and what the lines say.
    pub why: String,
    /// The lines. What stands behind `#` tells them apart.
    pub lines: Vec<String>,
}

impl Instead {
    fn new(why: impl Into<String>, lines: impl IntoIterator<Item = String>) -> Option<Instead> {
        Some(Instead { why: why.into(), lines: lines.into_iter().collect() })
    }
}

/// What to write instead of a faulty line of these words, if the sentence is known.
pub fn of(line: &[&str], names: &[String]) -> Option<Instead> {
    // A line that is good by itself is one too many of its kind; no other wording helps.
    if is_read(&[line.join(" ")], names) {
        return None;
    }
    let found = match line.split_first()? {
        (&"first", rest) => first(rest, names),
        (&"step", rest) => step::of(rest, names),
        (&"promise", rest) => promise::of(rest, names),
        (&"limit", rest) => limit::of(rest, names).or_else(|| limit::bare(rest, names)),
        _ => unmarked(line, names),
    }?;
    is_read(&found.lines, names).then_some(found)
}

/// Can these lines be read in a sheet of these letters, or of the letters that they name themselves?
fn is_read(lines: &[String], names: &[String]) -> bool {
    let (letters, records): (Vec<&String>, Vec<&String>) = lines.iter().partition(|line| line.starts_with("letters "));
    let own = letters.first().map_or(format!("letters {}", names.join(", ")), |line| line.to_string());
    parse::is_good(&records.iter().fold(own, |text, record| text + "\n" + record))
}

/// `first` with literals that are not joined by `or`.
fn first(rest: &[&str], names: &[String]) -> Option<Instead> {
    let Literals { list, .. } = literals(rest, &["and", ","], names)?;
    (list.len() > 1).then_some(())?;
    let why = "a first rule asks for one of its letters; to ask for all of them, write a line for each:";
    Instead::new(why, list.iter().map(|literal| format!("first {literal}")))
}

/// A line that begins with no word of the form.
fn unmarked(line: &[&str], names: &[String]) -> Option<Instead> {
    let (&beginning, rest) = line.split_first()?;
    match beginning {
        "always" | "never" => limit::at_every_moment(beginning == "never", rest, names),
        "sometime" | "sometimes" | "eventually" => promise::again_and_again(rest, names),
        "again" if rest.starts_with(&["and", "again"]) => promise::again_and_again(&rest[2..], names),
        "initially" | "start" | "begin" | "beginning" => beginning_with(rest, names),
        "at" if rest.first() == Some(&"first") => beginning_with(&rest[1..], names),
        _ => step::of(line, names).or_else(|| limit::of(line, names)),
    }
}

/// What holds at the first moment.
fn beginning_with(rest: &[&str], names: &[String]) -> Option<Instead> {
    let all = literals(rest, &["and", ","], names).map(|found| found.list.iter().map(|literal| format!("first {literal}")).collect());
    let lines = all.or_else(|| literals(rest, &["or"], names).map(|found| vec![format!("first {}", found.list.join(" or "))]))?;
    Instead::new("what holds at the first moment is a first rule:", lines)
}
