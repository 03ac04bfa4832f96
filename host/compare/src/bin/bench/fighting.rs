//! Which rules fight: a sheet of 24 letters and 255 step rules, two of which fight, judged, planned and the plan checked.

use crate::{measure, Only, Row, Table, LONG};
use plain::families::two_fight;
use plain::lent::Lent;
use std::hint::black_box;

/// The most states the judge has room for: more than these sheets have lawful states.
const STATES: usize = 16_384;

/// The rules that fight.
const FIGHTING: [usize; 2] = [100, 200];

/// The planner is to take less than so many times the judge's own time.
const BAR: f64 = 300.0;

/// The other rules of a sheet ask for one of so many literals.
const ASKED: [usize; 2] = [3, 2];

/// Slices with room for the most states.
fn lent() -> Lent {
    Lent::all(7, [STATES, STATES, 2 * STATES, 0])
}

/// Three rows for a sheet: judging it, planning it, checking the plan; with how many sheets each judges, and its time over the judge's.
fn rows(asked: usize) -> Vec<Row> {
    let sheet = &two_fight(FIGHTING, asked).bytes();
    let named = |what: &str| format!("{what}: 2 of 255 rules fight, the others ask for one of {asked}");
    let (mut ours, mut theirs) = (lent(), lent());
    let (Lent { table, words, scratch, .. }, Lent { table: table2, words: words2, scratch: scratch2, .. }) = (&mut ours, &mut theirs);
    let judged = measure(
        named("judging"),
        vec!["1".into()],
        LONG,
        || compare::judge(black_box(sheet), table, words, scratch, &mut []),
        || plain::judge::judge(black_box(sheet), table2, words2, scratch2, &mut []),
    );
    let plan = plain::clash::clash(sheet, table, words, scratch);
    assert_eq!((plan.answer, &plan.rules[..]), (0, &FIGHTING.map(|rule| rule as u32)[..]));
    let planned = measure(
        named("planning"),
        vec![plan.trials.to_string()],
        LONG,
        || naxxurbi_calls::clash(black_box(sheet), table, words, scratch),
        || {
            let plan = plain::clash::clash(black_box(sheet), table2, words2, scratch2);
            (plan.answer, plan.marks())
        },
    );
    let checked = measure(
        named("checking the plan"),
        vec![(1 + plan.rules.len()).to_string()],
        LONG,
        || naxxurbi_calls::check_clash(black_box(sheet), &plan.rules, table, words, scratch),
        || plain::clash::check_clash(black_box(sheet), &plan.rules, table2, words2, scratch2),
    );
    assert_eq!(ours, theirs);
    let times = planned.ours / judged.ours;
    assert!(times < BAR, "planned in {times:.0} times the judge's own time");
    let [ours, plain] = [judged.ours, judged.plain];
    let beside_the_judge = |mut row: Row| {
        row.facts.extend([row.ours / ours, row.plain / plain].map(|times| format!("{times:.2}")));
        row
    };
    [judged, planned, checked].map(beside_the_judge).into()
}

pub fn table(only: &Only) -> Table {
    let rows = ASKED.into_iter().filter(|asked| only.wants(&format!("2 of 255 rules fight, the others ask for one of {asked}")));
    Table {
        title: "Which rules fight",
        heads: &["sheets judged", "times judging", "the same, plain Rust"],
        rows: rows.flat_map(self::rows).collect(),
    }
}
