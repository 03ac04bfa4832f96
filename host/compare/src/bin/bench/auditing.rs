//! Auditing a log.

use crate::{measure, Only, Table, LONG};
use naxxurbi_calls::State;
use plain::audit::{Account, MOMENTS, TALLIES};
use plain::make::{Draft, Rng};
use std::hint::black_box;

/// 255 step rules over 24 letters. Each left side names `left` letters; each right side is one that every move makes true now and then.
fn rules(left: usize) -> Vec<u8> {
    let mut draft = Draft::new(24);
    let rng = &mut Rng::new(1);
    for _ in 0..TALLIES {
        let mut letters: Vec<i8> = Vec::new();
        while letters.len() < left + 2 {
            let letter = rng.within(1, 24) as i8;
            let literal = if rng.once_in(2) { letter } else { -letter };
            if !letters.contains(&literal) && !letters.contains(&-literal) {
                letters.push(literal);
            }
        }
        let (mut asks, mut allows) = (letters[..left].to_vec(), letters[left..].to_vec());
        asks.sort_unstable();
        allows.sort_unstable();
        draft.step(asks, allows);
    }
    draft.bytes()
}

pub fn table(only: &Only) -> Table {
    let rng = &mut Rng::new(2);
    let random: Vec<State> = (0..MOMENTS).map(|_| rng.number() as State & 0xFF_FFFF).collect();
    let still = vec![0x5A_5A5A; MOMENTS as usize];
    // No state comes twice in a row, and every branch can be foreseen.
    let in_turn: Vec<State> = (0..MOMENTS).map(|i| if i % 2 == 0 { 0x5A_5A5A } else { 0x3C_3C3C }).collect();
    let logs = [
        ("255 rules asked at every move, states at random", 0, &random),
        ("255 rules of one letter, states at random", 1, &random),
        ("255 rules of three letters, states at random", 3, &random),
        ("255 rules of one letter, one state over and over", 1, &still),
        ("255 rules of one letter, two states in turn", 1, &in_turn),
    ];
    let rows = logs
        .into_iter()
        .map(|(name, left, log)| (format!("audit: {name}"), left, log))
        .filter(|(name, ..)| only.wants(name))
        .map(|(name, left, log)| {
            let sheet = rules(left);
            let ours = || {
                let mut account = Account::new().numbers();
                let answer = naxxurbi_calls::audit(black_box(&sheet), &mut account, black_box(log));
                (answer, account)
            };
            let plain = || {
                let mut account = Account::new();
                let answer = plain::audit::audit(black_box(&sheet), &mut account, black_box(log));
                (answer, account.numbers())
            };
            assert_eq!(ours(), plain());
            assert_eq!(ours().0, 0);
            measure(name, vec![log.len().to_string()], LONG, ours, plain)
        })
        .collect();
    Table { title: "Auditing", heads: &["moments"], rows }
}
