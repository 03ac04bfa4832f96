//! Sheets as people write them, each in four orders of its letters: as written, reversed, and in two random orders.

use crate::{checking, judging, time, Only, Row, Table, SHORT};
use plain::families::{clashes, families, in_orders, ORDERS};
use plain::make::Family;

pub fn tables(only: &Only) -> Vec<Table> {
    let judged = |family: &Family| judging::row(family, SHORT);
    let checked = |family: &Family| checking::own_list(family.name.clone(), SHORT, &family.sheet);
    let title = "Checking strike lists: late clashes, in four orders of the letters";
    vec![
        Table { title: "Judging: sheets in four orders of their letters", heads: JUDGED, rows: rows(only, "", families(), judged) },
        Table { title: "Judging: late clashes, in four orders of the letters", heads: JUDGED, rows: rows(only, "", clashes(), judged) },
        Table { title, heads: &["states", "nodes"], rows: rows(only, "strikes: ", clashes(), checked) },
    ]
}

const JUDGED: &[&str] = &["R", "answer, count, a, b", "nodes"];

/// A row for each family and order.
fn rows(only: &Only, prefix: &str, families: Vec<Family>, row: impl Fn(&Family) -> Row) -> Vec<Row> {
    let mut rows = Vec::new();
    for family in families {
        let sheets = in_orders(&family.sheet).expect("a good sheet");
        let family = format!("{prefix}{}", family.name);
        for (order, sheet) in ORDERS.iter().zip(sheets) {
            let name = format!("{family}, {order}");
            if only.wants(&name) {
                rows.push(Row { family: Some(family.clone()), ..row(&Family { name, sheet }) });
            }
        }
    }
    rows
}

/// The rows of each family, in their order.
pub fn by_family(rows: &[Row]) -> impl Iterator<Item = &[Row]> {
    rows.chunk_by(|one, other| one.family.is_some() && one.family == other.family)
}

/// For each family the slowest order over the quickest; nothing where there are no families.
pub fn spread(rows: &[Row]) -> Vec<String> {
    let mut lines = Vec::new();
    for rows in by_family(rows).filter(|rows| rows.len() > 1) {
        let name = rows[0].family.as_deref().unwrap_or_default();
        let [(least, most), (plain_least, plain_most)] = [ends(rows, |row| row.ours), ends(rows, |row| row.plain)];
        lines.push(format!("| {name} | {} | {} | {:.2} | {:.2} |", time(least), time(most), most / least, plain_most / plain_least));
    }
    if !lines.is_empty() {
        let heads =
            ["", "| | ours, quickest order | slowest | slowest over quickest | the same, plain Rust |", "|---|---:|---:|---:|---:|"];
        lines.splice(..0, heads.map(str::to_string));
    }
    lines
}

/// The least and the most.
fn ends(rows: &[Row], of: impl Fn(&Row) -> f64) -> (f64, f64) {
    let times = || rows.iter().map(&of);
    (times().fold(f64::INFINITY, f64::min), times().fold(0.0, f64::max))
}
