//! The benchmark: our time, the plain Rust time and the ratio, side by side in one run. Never part of the gate.
//!
//! `bench` prints the tables. `bench docs FOLDER` also writes them into that folder's BENCHMARK.md, between its two marks, and the plot
//! beside it. `bench only TEXT` measures the rows whose name has that text.
//!
//! Each row is measured in turns, ours and the plain one, in processor time, and the least of several turns is taken: other work on the
//! machine only ever adds time. A row that takes long is measured once. Sheets are always the same. What the variable MEASURED_ON
//! says (processor, compilers, commit) stands before the tables.

#![deny(warnings)]

mod auditing;
mod checking;
mod clock;
mod counting;
mod fighting;
mod judging;
mod orders;
mod plot;
mod reading;

use std::hint::black_box;
use std::time::{Duration, Instant};

/// A row: what was measured, what is worth knowing of it, and the least times of one call.
pub struct Row {
    /// What was measured.
    pub name: String,
    /// The columns between the name and the times.
    pub facts: Vec<String>,
    /// Our time, in nanoseconds.
    pub ours: f64,
    /// The plain Rust time, in nanoseconds.
    pub plain: f64,
    /// For a sheet that is measured in several orders of its letters, the family.
    pub family: Option<String>,
}

/// A table: its title, the heads of the columns between the name and the times, and its rows.
pub struct Table {
    /// What the rows have in common.
    pub title: &'static str,
    /// The heads of the columns of facts.
    pub heads: &'static [&'static str],
    /// The rows.
    pub rows: Vec<Row>,
}

/// Which rows are wanted.
pub struct Only(Option<String>);

impl Only {
    /// Whether a row of this name is.
    pub fn wants(&self, name: &str) -> bool {
        self.0.as_ref().is_none_or(|text| name.contains(text.as_str()))
    }
}

/// The time of so many calls, divided by their number, in nanoseconds.
fn turn<T>(calls: u32, call: &mut impl FnMut() -> T) -> f64 {
    let start = clock::now();
    for _ in 0..calls {
        black_box(call());
    }
    (clock::now() - start) / f64::from(calls)
}

/// How many calls make a turn of about a millisecond: short enough to fall between other work on the machine now and then.
fn calls(nanoseconds: f64) -> u32 {
    (1e6 / nanoseconds.max(20.0)).clamp(1.0, 50_000.0) as u32
}

/// What a call gives, and how long it took, in nanoseconds.
fn timed<T>(call: impl FnOnce() -> T) -> (T, f64) {
    let start = clock::now();
    let given = call();
    (given, clock::now() - start)
}

/// How long a row is measured at most: no turn begins later.
pub const LONG: Duration = Duration::from_secs(4);

/// The same where there are many rows alike.
pub const SHORT: Duration = Duration::from_secs(1);

/// A time in nanoseconds so short that ten turns can always be had.
const QUICK: f64 = 1e7;

/// The least times of one call of each, taken in a hundred turns, or fewer where they take long. In the first turn, of one call each, both
/// must give the same.
pub fn measure<T>(name: String, facts: Vec<String>, most: Duration, mut ours: impl FnMut() -> T, mut plain: impl FnMut() -> T) -> Row
where
    T: PartialEq + std::fmt::Debug,
{
    let start = Instant::now();
    let ((given, our_time), (other, plain_time)) = (timed(&mut ours), timed(&mut plain));
    assert_eq!(given, other, "{name}");
    let mut row = Row { name, facts, ours: our_time, plain: plain_time, family: None };
    for number in 0..100 {
        let late = start.elapsed() > most;
        if late && number >= 10 {
            break;
        }
        // Of one that takes long and one that does not, the latter has some turns more.
        if !late || row.ours < QUICK {
            row.ours = row.ours.min(turn(calls(row.ours), &mut ours));
        }
        if !late || row.plain < QUICK {
            row.plain = row.plain.min(turn(calls(row.plain), &mut plain));
        }
    }
    eprintln!("{}: {} against {}", row.name, time(row.ours), time(row.plain));
    row
}

/// A time for people.
pub fn time(nanoseconds: f64) -> String {
    match nanoseconds {
        n if n < 1e3 => format!("{n:.0} ns"),
        n if n < 1e6 => format!("{:.1} µs", n / 1e3),
        n if n < 1e9 => format!("{:.1} ms", n / 1e6),
        n => format!("{:.2} s", n / 1e9),
    }
}

fn markdown(table: &Table) -> String {
    let mut lines = vec![format!("### {}\n", table.title)];
    let facts: String = table.heads.iter().map(|head| format!(" {head} |")).collect();
    lines.push(format!("| |{facts} ours | plain Rust | ratio |"));
    lines.push(format!("|---|{}---:|---:|---:|", "---:|".repeat(table.heads.len())));
    for row in &table.rows {
        let facts: String = row.facts.iter().map(|fact| format!(" {fact} |")).collect();
        let ratio = row.ours / row.plain;
        let digits = if ratio < 0.1 { 4 } else { 2 };
        lines.push(format!("| {} |{facts} {} | {} | {ratio:.digits$} |", row.name, time(row.ours), time(row.plain)));
    }
    lines.extend(orders::spread(&table.rows));
    lines.join("\n") + "\n"
}

const BEGIN: &str = "<!-- measured: begin -->";
const END: &str = "<!-- measured: end -->";

/// Puts the tables between the page's marks, and the plot beside the page.
fn write(folder: &str, tables: &[Table], text: &str) -> std::io::Result<()> {
    let page = format!("{folder}/BENCHMARK.md");
    let old = std::fs::read_to_string(&page)?;
    let (Some(begin), Some(end)) = (old.find(BEGIN), old.find(END)) else {
        return Err(std::io::Error::other("BENCHMARK.md has no marks"));
    };
    std::fs::write(&page, format!("{}\n\n{text}\n{}", &old[..begin + BEGIN.len()], &old[end..]))?;
    std::fs::write(format!("{folder}/benchmark.svg"), plot::svg(tables))
}

fn main() -> std::io::Result<()> {
    let arguments: Vec<String> = std::env::args().skip(1).collect();
    let (only, folder) = match &arguments.iter().map(String::as_str).collect::<Vec<_>>()[..] {
        [] => (Only(None), None),
        ["only", text] => (Only(Some(text.to_string())), None),
        ["docs", folder] => (Only(None), Some(*folder)),
        _ => return Err(std::io::Error::other("bench [docs FOLDER | only TEXT]")),
    };
    let mut tables = vec![reading::table(&only)];
    tables.extend(checking::tables(&only));
    tables.extend(judging::tables(&only));
    tables.extend(orders::tables(&only));
    tables.push(auditing::table(&only));
    tables.push(counting::table(&only));
    tables.push(fighting::table(&only));
    tables.retain(|table| !table.rows.is_empty());
    let on = std::env::var("MEASURED_ON").map_or(String::new(), |words| words + "\n\n");
    let text = on + &tables.iter().map(markdown).collect::<Vec<_>>().join("\n");
    println!("{text}");
    folder.map_or(Ok(()), |folder| write(folder, &tables, &text))
}
