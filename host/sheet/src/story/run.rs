//! The sample run as a table.

use crate::model::{Sheet, State};
use crate::story::count;
use crate::text::print;

/// A longer run than this is cut.
const MOST_ROWS: usize = 40;
/// So many rows stay at the front and at the end of a run that is cut.
const KEPT_ROWS: usize = 15;

/// The run, moment by moment: letters that hold, promises kept there, where it goes back to.
pub fn table(sheet: &Sheet, run: &[State], a: u32, all: bool) -> String {
    let cut = !all && run.len() > MOST_ROWS;
    let shown: Vec<usize> = (0..run.len()).filter(|&at| !cut || at < KEPT_ROWS || run.len() - at <= KEPT_ROWS).collect();
    let rows: Vec<[String; 3]> = shown.iter().map(|&at| row(sheet, run, at)).collect();
    let width = |column: usize, title: &str| rows.iter().map(|row| row[column].chars().count()).chain([title.len()]).max().unwrap_or(0);
    let widths = [width(0, "moment"), width(1, "letters that hold")];
    let promises = if sheet.promises.is_empty() { "" } else { "promises kept" };
    let mut table = line(&widths, ["moment", "letters that hold", promises]);
    for (place, (at, cells)) in shown.iter().zip(&rows).enumerate() {
        if place > 0 && shown[place - 1] + 1 < *at {
            table += &format!("  .. {} (--all shows them)\n", count(at - shown[place - 1] - 1, "more moment"));
        }
        table += &line(&widths, [&cells[0], &cells[1], &cells[2]]);
    }
    table + &format!("  from moment {} back to moment {a}, and so on for ever\n", run.len().saturating_sub(1))
}

/// A moment, its letters, its promises.
fn row(sheet: &Sheet, run: &[State], at: usize) -> [String; 3] {
    let mut kept: Vec<String> = Vec::new();
    for promise in sheet.kept(run[at]) {
        let name = print::literal(sheet, sheet.promises[promise]);
        // A sheet may promise the same twice.
        if !kept.contains(&name) {
            kept.push(name);
        }
    }
    [at.to_string(), print::state(sheet, run[at]), kept.join(", ")]
}

/// One line of the table, the moment to the right, the rest to the left.
fn line(widths: &[usize; 2], [moment, letters, promises]: [&str; 3]) -> String {
    let line = format!("  {moment:>0$}  {letters:<1$}  {promises}", widths[0], widths[1]);
    format!("{}\n", line.trim_end())
}
