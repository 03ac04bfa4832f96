//! A class as a table for people, as CSV and as JSON. docs/GUIDE.md has the names.

use crate::class::look::{Seen, Verdict, WORDS};
use crate::json::Json;
use crate::story::count;
use crate::text::width;

/// The numbers of a verdict: states, moments, answer, byte, line.
fn numbers(verdict: Verdict) -> [Option<u64>; 5] {
    match verdict {
        Verdict::Kept(states, moments) => [Some(states.into()), Some(moments.into()), Some(0), None, None],
        Verdict::Cannot(states) => [Some(states.into()), None, Some(13), None, None],
        Verdict::Bad(answer, byte) => [None, None, Some(answer.into()), Some(byte as u64), None],
        Verdict::NoSheet(line) => [None, None, None, None, line.map(|line| line as u64)],
        Verdict::Unreadable => [None; 5],
        Verdict::NoRoom => [None, None, Some(11), None, None],
    }
}

/// The names of these numbers.
const NUMBERS: [&str; 5] = ["states", "moments", "answer", "byte", "line"];

/// A line for each file, under their heads.
pub fn table(class: &[Seen]) -> String {
    let rows: Vec<[String; 5]> = class.iter().map(row).collect();
    let heads = ["file", "verdict", "K or R", "b", "why"].map(str::to_string);
    let wide = |column: usize| rows.iter().chain([&heads]).map(|row| width::of(&row[column])).max().unwrap_or(0);
    let [file, verdict, states, moments] = [wide(0), wide(1), wide(2), wide(3)];
    let line = |row: &[String; 5]| {
        let (front, words) = (width::padded(&row[0], file), width::padded(&row[1], verdict));
        format!("{front}  {words}  {:>states$}  {:>moments$}  {}", row[2], row[3], row[4]).trim_end().to_string() + "\n"
    };
    std::iter::once(&heads).chain(&rows).map(line).collect()
}

fn row(seen: &Seen) -> [String; 5] {
    let word = WORDS[seen.verdict.kind()];
    let words = match seen.verdict {
        Verdict::Bad(answer, byte) => format!("{word}: answer {answer}, byte {byte}"),
        Verdict::NoSheet(Some(line)) => format!("{word}: line {line}"),
        _ => word.to_string(),
    };
    let [states, moments, ..] = numbers(seen.verdict).map(|number| number.map(|number| number.to_string()).unwrap_or_default());
    [harmless(&seen.file), words, states, moments, harmless(&seen.why)]
}

/// A text without signs that a terminal would obey.
fn harmless(text: &str) -> String {
    text.chars().map(|sign| if sign.is_control() { char::REPLACEMENT_CHARACTER } else { sign }).collect()
}

/// How many files there are of each verdict; the first three are always counted.
fn counts(class: &[Seen]) -> [usize; 6] {
    let mut counts = [0; 6];
    class.iter().for_each(|seen| counts[seen.verdict.kind()] += 1);
    counts
}

/// The last line: how many files have each verdict.
pub fn sums(class: &[Seen]) -> String {
    let told = counts(class).into_iter().enumerate().filter(|&(kind, many)| kind < 3 || many > 0);
    let told: Vec<String> = told.map(|(kind, many)| format!("{many} {}", WORDS[kind])).collect();
    format!("{}: {}\n", count(class.len(), "file"), told.join(", "))
}

/// The class as CSV: a first line with the names, then a line for each file.
pub fn csv(class: &[Seen]) -> String {
    let mut text = format!("file,verdict,{},why\n", NUMBERS.join(","));
    for seen in class {
        let numbers = numbers(seen.verdict).map(|number| number.map(|number| number.to_string()).unwrap_or_default());
        let cells = [cell(&seen.file), WORDS[seen.verdict.kind()].to_string()];
        let cells: Vec<String> = cells.into_iter().chain(numbers).chain([cell(&seen.why)]).collect();
        text += &(cells.join(",") + "\n");
    }
    text
}

/// A text as a cell of CSV.
fn cell(text: &str) -> String {
    if text.contains([',', '"', '\n', '\r']) {
        format!("\"{}\"", text.replace('"', "\"\""))
    } else {
        text.to_string()
    }
}

/// The class as JSON.
pub fn as_json(class: &[Seen]) -> Json {
    let files = class.iter().map(|seen| {
        let front = [("file", Json::text(&*seen.file)), ("verdict", Json::text(WORDS[seen.verdict.kind()]))];
        let numbers = numbers(seen.verdict).map(|number| Json::or_null(number.map(Json::Number)));
        let members = front.into_iter().chain(NUMBERS.into_iter().zip(numbers)).chain([("why", Json::text(&*seen.why))]);
        Json::Object(members.collect())
    });
    let sums = WORDS.into_iter().zip(counts(class).map(Json::number)).collect();
    Json::Object(vec![("files", Json::list(files)), ("sums", Json::Object(sums))])
}
