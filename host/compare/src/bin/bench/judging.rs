//! Judging: made-up families, and those of source document 000.

use crate::{measure, Only, Row, Table, LONG, SHORT};
use plain::judge::{explored, Answer};
use plain::lent::Lent;
use plain::make::{self, Draft, Family};
use plain::source;
use std::hint::black_box;
use std::time::Duration;

/// The most states the judge has room for, and the most moments that a sample run of them can have.
const STATES: usize = 16_384;
const MOMENTS: usize = 16 * STATES;

fn families() -> Vec<Family> {
    let named = |name: &str, draft: Draft| Family { name: name.to_string(), sheet: draft.bytes() };
    vec![
        named("W15, the robots", make::w15()),
        named("20 letters, exactly 3 hold", make::exactly(20, 3)),
        named("12 letters, no rules", make::free(12)),
        named("12 letters, nearly every move", make::dense(12)),
        named("counter of 12 letters", make::counter(12)),
        named("counter of 12 letters to a dead end", make::counter_to_dead_end(12)),
        named("chain of promises, one state at a time", make::falling_promises(8)),
        named("run of K x p moments", make::long_run(12, 16)),
        named("24 letters, no rules: too many states", make::free(24)),
    ]
}

pub fn tables(only: &Only) -> Vec<Table> {
    let table = |title, families: Vec<Family>| Table {
        title,
        heads: &["R", "answer, count, a, b", "nodes"],
        rows: families.iter().filter(|family| only.wants(&family.name)).map(|family| row(family, LONG)).collect(),
    };
    vec![
        table("Judging: hard and easy shapes", families()),
        table("Judging: many rounds, many states", plain::families::many()),
        table("Judging: what no look at single rows sees", plain::families::odd_clashes()),
        table("Judging: source document 000's experiments", source::families()),
        exploring(only),
    ]
}

/// Judged with exactly as much room as is needed, so that wiping unused places is no part of it.
pub fn row(family: &Family, most: Duration) -> Row {
    let found = explored(&family.sheet, STATES).expect("a good sheet");
    let states = found.states.map_or(format!("over {STATES}"), |states| states.to_string());
    judged(family, found.states.unwrap_or(STATES), most, |answer| vec![states, answer, found.nodes.to_string()])
}

/// Judged by both with so much room; the facts depend on the answer. Both must leave the same in the slices.
fn judged(family: &Family, room: usize, most: Duration, facts: impl FnOnce(String) -> Vec<String>) -> Row {
    let Family { name, sheet } = family;
    let mut lent = Lent::all(7, [room, room, 2 * room, MOMENTS]);
    let theirs = plain::judge::judge(sheet, &mut lent.table, &mut lent.words, &mut lent.scratch, &mut lent.run);
    let Answer { answer, count, a, b, .. } = theirs;
    lent.run.truncate(b as usize);
    let facts = facts(format!("{answer} {count} {a} {b}"));
    let mut ours = Lent::all(7, lent.lengths());
    let mut plain = lent.clone();
    let row = measure(
        name.clone(),
        facts,
        most,
        || compare::judge(black_box(sheet), &mut ours.table, &mut ours.words, &mut ours.scratch, &mut ours.run),
        || plain::judge::judge(black_box(sheet), &mut plain.table, &mut plain.words, &mut plain.scratch, &mut plain.run),
    );
    assert_eq!(ours, lent, "{name}");
    row
}

/// Exploring alone: judged with room for all states but one, so that both end with 11 when they come to the last state.
fn exploring(only: &Only) -> Table {
    let mut all = families();
    all.extend(plain::families::families());
    let mut rows = Vec::new();
    for Family { name, sheet } in all {
        let family = Family { name: format!("exploring: {name}"), sheet };
        let found = explored(&family.sheet, STATES).expect("a good sheet");
        if let (Some(states @ 2..), true) = (found.states, only.wants(&family.name)) {
            let until = explored(&family.sheet, states - 1).expect("a good sheet").nodes;
            let facts = vec![states.to_string(), until.to_string(), found.nodes.to_string()];
            rows.push(judged(&family, states - 1, SHORT, |_| facts));
        }
    }
    Table { title: "Exploring alone", heads: &["R", "nodes", "of nodes in all"], rows }
}
