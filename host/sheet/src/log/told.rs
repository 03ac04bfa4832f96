//! A log's audit in words: its breaches, what was broken how often, and the tallies as a table.

use crate::explain::unlawful;
use crate::log::breach::{Audit, Breach, Moment, Tally, What};
use crate::model::{Rule, Sheet};
use crate::out::Colour;
use crate::proved::Account;
use crate::story::{count, parted};
use crate::text::print;

/// How many moments were read, and the breaches.
pub fn verdict(sheet: &Sheet, audit: &Audit<'_>, colour: Colour) -> String {
    let read = format!("The proved audit: {} read", count(audit.account.count() as usize, "moment"));
    let many = audit.count();
    if many == 0 {
        return format!("{read}, {}.\n", colour.green("no breach"));
    }
    let breaches = if many == 1 { "1 breach".to_string() } else { format!("{} breaches", parted(many)) };
    let told: String = audit.told.iter().map(|breach| one(sheet, breach)).collect();
    let (only, more) = match many - audit.told.len() {
        0 => (String::new(), String::new()),
        1 => (format!(" The first {}:", audit.told.len()), "  .. 1 more breach (--all tells it)\n".to_string()),
        rest => (format!(" The first {}:", audit.told.len()), format!("  .. {} more breaches (--all tells them)\n", parted(rest))),
    };
    format!("{read}, {}.{only}\n{told}{more}", colour.red(&breaches))
}

/// One breach with the letters before and at it.
fn one(sheet: &Sheet, breach: &Breach) -> String {
    let mut told = format!("  moment {}: {}\n", parted(breach.number), said(sheet, breach));
    if let Some(before) = &breach.before {
        told += &letters(sheet, breach.number - 1, before);
    }
    told + &letters(sheet, breach.number, &breach.at)
}

/// A moment, its time if it has one, and the letters that hold.
fn letters(sheet: &Sheet, number: usize, moment: &Moment) -> String {
    let time = moment.time.as_ref().filter(|time| !time.is_empty());
    let time = time.map(|time| format!(" ({})", harmless(time))).unwrap_or_default();
    format!("    moment {}{time}: {}\n", parted(number), print::state(sheet, moment.state))
}

/// A time as a log writes it, without signs that a terminal would obey.
fn harmless(time: &str) -> String {
    time.chars().filter(|sign| !sign.is_control()).take(40).collect()
}

/// What a breach broke, as a sentence without its full stop.
fn said(sheet: &Sheet, breach: &Breach) -> String {
    match (breach.what, breach.what.rule(sheet)) {
        (What::First(_) | What::Step(_), Some(rule)) => print::broken(sheet, rule),
        (What::First(number), None) => format!("first rule {number} is broken"),
        (What::Step(number), None) => format!("step {number} is broken"),
        _ => unlawful(sheet, breach.at.state).unwrap_or_else(|| "the state is unlawful".to_string()),
    }
}

/// What was broken how often, and when first and last. At each moment of a breach only the first thing wrong counts.
pub fn broken(sheet: &Sheet, audit: &Audit<'_>) -> String {
    if audit.count() < 2 {
        return String::new();
    }
    let name = |what: What| match what.rule(sheet) {
        Some(rule) => format!("{}: {}", print::numbered(sheet, rule), print::rule(sheet, rule)),
        None => "a number that is no state of this sheet".to_string(),
    };
    let mut tallies: Vec<(&What, &Tally)> = audit.tallies.iter().collect();
    tallies.sort_by_key(|(_, tally)| std::cmp::Reverse(tally.count));
    let rows: Vec<[String; 4]> =
        tallies.into_iter().map(|(&what, tally)| [parted(tally.count), parted(tally.first), parted(tally.last), name(what)]).collect();
    let looked_up = audit.tallies.keys().any(|what| matches!(what, What::Limit(_) | What::First(_)));
    let own = if looked_up { "Which limit or first rule it is, this command looks up; the rest is proved.\n" } else { "" };
    let head = "How often each was broken, the first thing wrong at its moment, and the first and the last such moment:\n";
    head.to_string() + &table(["breaches", "first", "last", "broken"], &rows) + own
}

/// The tallies, a line for each step rule: first those broken, then those never asked, then the others.
pub fn tallies(sheet: &Sheet, account: &Account) -> String {
    if sheet.steps.is_empty() {
        return "The sheet has no step rules.\n".to_string();
    }
    let tally = |at: usize| (account.kept()[at], account.broken()[at]);
    let group = |at: usize| match tally(at) {
        (_, broken) if broken > 0 => 0,
        (0, _) => 1,
        _ => 2,
    };
    let mut rules: Vec<usize> = (0..sheet.steps.len()).collect();
    rules.sort_by_key(|&at| group(at));
    let rows: Vec<[String; 5]> = rules
        .iter()
        .map(|&at| {
            let (kept, broken) = tally(at);
            let text = print::rule(sheet, Rule::Step(at));
            let remark = if group(at) == 1 { "  (never asked)" } else { "" };
            [(at + 1).to_string(), line_of(sheet, at), parted(kept as usize), parted(broken as usize), text + remark]
        })
        .collect();
    let head = "Moves that kept and broke each step rule, of those before which its left side held:\n";
    head.to_string() + &table(["step", if sheet.written.is_empty() { "" } else { "line" }, "kept", "broken", "rule"], &rows)
}

/// The line of a step rule, or nothing.
fn line_of(sheet: &Sheet, at: usize) -> String {
    sheet.written.get(&Rule::Step(at)).map(|written| written.line.to_string()).unwrap_or_default()
}

/// What a log cannot say.
pub fn promises(sheet: &Sheet) -> String {
    match sheet.promises.len() {
        0 => String::new(),
        1 => "The promise is not judged: a log ends, and a promise may be kept later.\n".to_string(),
        many => format!("The {many} promises are not judged: a log ends, and a promise may be kept later.\n"),
    }
}

/// Columns of numbers and a text behind them, under their heads. A column without a head is left out: a sheet of bytes has no lines.
fn table<const COLUMNS: usize>(heads: [&str; COLUMNS], rows: &[[String; COLUMNS]]) -> String {
    let width = |column: usize| rows.iter().map(|row| row[column].len()).chain([heads[column].len()]).max().unwrap_or(0);
    let line = |cells: [&str; COLUMNS]| {
        let shown = (0..COLUMNS - 1).filter(|&column| !heads[column].is_empty());
        let numbers: String = shown.map(|column| format!("  {:>wide$}", cells[column], wide = width(column))).collect();
        format!("{numbers}  {}\n", cells[COLUMNS - 1])
    };
    let lines: String = rows.iter().map(|row| line(row.each_ref().map(String::as_str))).collect();
    line(heads) + &lines
}
