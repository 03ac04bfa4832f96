//! The whole class in one call: the answer, the numbers and all four slices compared whole.

use crate::{differs, Tally};
use naxxurbi_calls::State;
use plain::class::{EACH, SHEETS};
use plain::lent::Lent;
use plain::make::{damage, letters, random_draft, Rng, DAMAGES};
use plain::named::wall;

type JudgeClass = fn(&[u8], &[u32], &mut [State], &mut [u32], &mut [State], &mut [State], &mut [u32]) -> u32;

/// What is handed in: sheets, ends, the four slices and the numbers.
struct Class {
    sheets: Vec<u8>,
    ends: Vec<u32>,
    lent: Lent,
    numbers: Vec<u32>,
}

/// What comes back: the answer, the four slices and the numbers.
type Judged = (u32, Lent, Vec<u32>);

fn judged(judge_class: JudgeClass, class: &Class) -> Judged {
    let Lent { mut table, mut words, mut scratch, mut run } = class.lent.clone();
    let mut numbers = class.numbers.clone();
    let answer = judge_class(&class.sheets, &class.ends, &mut table, &mut words, &mut scratch, &mut run, &mut numbers);
    (answer, Lent { table, words, scratch, run }, numbers)
}

/// One sheet for a class: none, one of the wall, a random one of few letters, or that damaged.
fn any_sheet(rng: &mut Rng) -> Vec<u8> {
    let draft = |rng: &mut Rng| {
        let letters = letters(rng).min(5);
        random_draft(rng, letters).bytes()
    };
    match rng.below(8) {
        0 => Vec::new(),
        1 | 2 => {
            let wall = wall();
            rng.pick(&wall).sheet.clone()
        }
        3..=5 => draft(rng),
        _ => {
            let sheet = draft(rng);
            let way = rng.below(DAMAGES);
            damage(rng, &sheet, way)
        }
    }
}

/// A class of up to 33 sheets, as a rule with some room more than its numbers need.
fn any_class(rng: &mut Rng) -> Class {
    let count = if rng.once_in(8) { rng.within(SHEETS - 1, SHEETS + 1) } else { rng.below(6) };
    let (mut sheets, mut ends) = (Vec::new(), Vec::new());
    for _ in 0..count {
        sheets.extend(any_sheet(rng));
        ends.push(sheets.len() as u32);
    }
    let lengths = [0; 4].map(|_: usize| rng.below(24));
    let places = (EACH * count + rng.clone().below(6)).saturating_sub(1);
    let numbers = (0..places).map(|_| rng.number() as u32 | 1).collect();
    Class { sheets, ends, lent: Lent::filled(rng, lengths), numbers }
}

/// The same with one end moved, the ends shifted, one left out or some input more.
fn disturb(rng: &mut Rng, class: &mut Class) {
    let places = class.ends.len();
    match rng.below(5) {
        0 if places > 0 => class.ends[rng.below(places)] = rng.below(class.sheets.len() + 3) as u32,
        1 if places > 0 => class.ends[rng.below(places)] = rng.number() as u32,
        2 if places > 0 => {
            class.ends.remove(rng.below(places));
        }
        3 if places > 1 => class.ends.swap(0, places - 1),
        _ => class.sheets.push(rng.byte()),
    }
}

pub fn suite(rng: &mut Rng, rounds: usize) -> bool {
    let mut calls = Tally::new("classes");
    let mut sheets = Tally::new("sheets of a class");
    for _ in 0..2 * rounds {
        let mut class = any_class(rng);
        if rng.once_in(3) {
            disturb(rng, &mut class);
        }
        let ours = judged(naxxurbi_calls::judge_class, &class);
        let plain = judged(plain::class::judge_class, &class);
        if differs("class", &class.sheets, &ours, &plain) {
            println!("  ends {:?}\n  lent {:?}", class.ends, class.lent.lengths());
            return false;
        }
        calls.count(ours.0);
        if ours.0 == 0 {
            ours.2.chunks_exact(EACH).take(class.ends.len()).for_each(|numbers| sheets.count(numbers[0]));
        }
    }
    calls.complete(&[0, 16]) & sheets.complete(&[0, 1, 2, 3, 4, 5, 6, 7, 8, 9, 10, 11, 12, 13])
}
