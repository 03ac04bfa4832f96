//! Checking runs and strike lists: the judge's own papers, as bytes.

use crate::{measure, Only, Row, Table, LONG};
use naxxurbi_calls::{check_run, check_strikes, state_bytes, word_bytes, State};
use plain::check::{check_run_bytes, check_strikes_bytes, strikes_nodes};
use plain::judge::judge;
use plain::make::{counter, counter_to_dead_end, dense, falling_promises, free, late_clash, long_run, mostly_idle, never, w15};
use plain::source::{football, Team};
use std::collections::BTreeSet;
use std::hint::black_box;
use std::time::Duration;

/// The bytes of a state on a paper.
const STATE: usize = size_of::<State>();

/// The judge's paper: a run's states and its a, or a strike list's states and words.
struct Paper {
    sheet: Vec<u8>,
    a: u32,
    states: Vec<u8>,
    words: Vec<u8>,
    different: usize,
    nodes: u64,
}

fn paper(sheet: Vec<u8>) -> Paper {
    let (mut table, mut words) = (vec![0; 16_384], vec![0; 16_384]);
    let (mut scratch, mut run) = (vec![0; 32_768], vec![0; 262_144]);
    let answer = judge(&sheet, &mut table, &mut words, &mut scratch, &mut run);
    let (states, words) = match answer.answer {
        0 => (&run[..answer.b as usize], &[][..]),
        13 => (&table[..answer.count as usize], &words[..answer.count as usize]),
        other => panic!("no paper: {other}"),
    };
    let different = words.iter().collect::<BTreeSet<_>>().len();
    let nodes = strikes_nodes(&sheet, states, words);
    Paper { a: answer.a, states: state_bytes(states), words: word_bytes(words), different, nodes, sheet }
}

pub fn tables(only: &Only) -> Vec<Table> {
    vec![runs(only), lists(only)]
}

fn runs(only: &Only) -> Table {
    let drafts = [
        ("counter of 12 letters, 16 promises", long_run(12, 16)),
        ("counter of 12 letters", counter(12)),
        ("football, goalkeeper", football(Team::Goalkeeper)),
    ];
    let mut rows = Vec::new();
    for (name, draft) in drafts {
        let name = format!("run: {name}");
        if only.wants(&name) {
            let Paper { sheet, a, states, .. } = paper(draft.bytes());
            assert_eq!(check_run_bytes(&sheet, &states, a), 0);
            rows.push(measure(
                name,
                vec![(states.len() / STATE).to_string()],
                LONG,
                || check_run(black_box(&sheet), &states, a),
                || check_run_bytes(black_box(&sheet), &states, a),
            ));
        }
    }
    Table { title: "Checking runs", heads: &["states"], rows }
}

/// What a row's name has if its states are listed from the last to the first, so that hardly one asks for more than the one before it.
const BACKWARDS: &str = "from the back";

/// The end of a row's name that says so: its list has one entry more, the last one again; or has every entry twice.
const TWICE: &str = "last state twice";
const ALL_TWICE: &str = "every state twice";

fn lists(only: &Only) -> Table {
    let drafts = [
        ("W15, the robots", w15()),
        ("counter of 12 letters to a dead end", counter_to_dead_end(12)),
        ("chain of promises", falling_promises(8)),
        ("12 letters, every move", never(free(12))),
        ("12 letters, nearly every move", never(dense(12))),
        ("football, all injured", football(Team::AllInjured)),
        ("counter of 12 letters to a dead end, last state twice", counter_to_dead_end(12)),
        ("12 letters, every move, last state twice", never(free(12))),
        ("10 letters, nearly every move, from the back", never(dense(10))),
        ("10 letters, nearly every move, from the back, last state twice", never(dense(10))),
        ("12 letters, 60 rules, 48 never ask, from the back", never(mostly_idle(12, 60))),
        ("12 letters, 60 rules, 48 never ask, from the back, last state twice", never(mostly_idle(12, 60))),
        ("12 letters, 60 rules, 48 never ask, from the back, every state twice", never(mostly_idle(12, 60))),
        ("12 letters, 255 rules, 243 never ask, from the back, every state twice", never(mostly_idle(12, 255))),
        ("counter of 12 letters to a dead end, every state twice", counter_to_dead_end(12)),
        ("13 letters, every move, every state twice", never(free(13))),
        ("late clash, 20 letters, 4 rules", late_clash(20, 0)),
        ("late clash, 24 letters, 4 rules", late_clash(24, 0)),
        ("late clash, 24 letters, 255 rules", late_clash(24, 251)),
    ];
    let mut rows = Vec::new();
    for (name, draft) in drafts {
        let name = format!("strikes: {name}");
        if only.wants(&name) {
            let Paper { sheet, mut states, mut words, different, .. } = paper(draft.bytes());
            if name.contains(BACKWARDS) {
                assert_eq!(different, 1, "one word, so that the order is free");
                states = states.chunks(STATE).rev().flatten().copied().collect();
            }
            if name.ends_with(TWICE) {
                // Its own word once more: the list stays right.
                states.extend_from_within(states.len() - STATE..);
                words.extend_from_within(words.len() - 4..);
            }
            if name.ends_with(ALL_TWICE) {
                states = states.chunks(STATE).flat_map(|state| [state, state].concat()).collect();
                words = words.chunks(4).flat_map(|word| [word, word].concat()).collect();
            }
            let facts = vec![(states.len() / STATE).to_string(), different.to_string()];
            rows.push(list(name, facts, LONG, [&sheet, &states, &words]));
        }
    }
    Table { title: "Checking strike lists", heads: &["states", "different words"], rows }
}

/// A strike list that is right: the sheet, the states and the words.
fn list(name: String, facts: Vec<String>, most: Duration, [sheet, states, words]: [&[u8]; 3]) -> Row {
    assert_eq!(check_strikes_bytes(sheet, states, words), 0, "{name}");
    let ours = || check_strikes(black_box(sheet), states, words);
    measure(name, facts, most, ours, || check_strikes_bytes(black_box(sheet), states, words))
}

/// The judge's own strike list of a sheet; how many states it has, and how many nodes the plain checker visits.
pub fn own_list(name: String, most: Duration, sheet: &[u8]) -> Row {
    let Paper { sheet, states, words, nodes, .. } = paper(sheet.to_vec());
    list(name, vec![(states.len() / STATE).to_string(), nodes.to_string()], most, [&sheet, &states, &words])
}
