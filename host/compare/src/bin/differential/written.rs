//! Sheets as people write them: a few letters with rules and many that say something of these, in any order of the letters; late clashes.
//! Judge and checkers against the plain ones, and the judge against the naive one where that takes it on.

use crate::{checkers, differs, judge, Tally};
use plain::brute;
use plain::families::{clashes, families, in_orders, written};
use plain::lent::Lent;
use plain::make::Rng;

/// The most letters of a sheet, and of most sheets.
const LETTERS: usize = 24;
const FEW_LETTERS: usize = 12;

/// The room lent for papers.
const ROOM: [usize; 4] = [600, 600, 1200, 9600];

/// Judge and checkers on a sheet and on its papers, right and damaged.
fn sheet(rng: &mut Rng, judged: &mut judge::Seen, checked: &mut checkers::Checked, sheet: &[u8]) -> bool {
    naive(rng, sheet) && judge::good(rng, judged, sheet) && checkers::papers(rng, checked, sheet)
}

/// The judge against the naive one, for at most five letters.
fn naive(rng: &mut Rng, sheet: &[u8]) -> bool {
    let lent = Lent::filled(rng, ROOM);
    let Lent { table, words, scratch, run } = &lent;
    match brute::judge(sheet, table, words, scratch, run) {
        Some(naive) => !differs("judge, beside the naive one,", sheet, &judge::judged(compare::judge, sheet, &lent), &naive),
        None => true,
    }
}

pub fn suite(rng: &mut Rng, rounds: usize) -> bool {
    let (mut runs, mut lists) = (Tally::new("run checker, as written"), Tally::new("strike checker, as written"));
    let mut checked = checkers::Checked { runs: &mut runs, lists: &mut lists };
    let mut judged = judge::Seen::new("judge, as written");
    for round in 0..rounds {
        let most = if round % 4 == 0 { LETTERS } else { FEW_LETTERS };
        let letters = rng.within(2, most) as u8;
        let bytes = written(rng, letters).bytes();
        if !sheet(rng, &mut judged, &mut checked, &bytes) {
            return false;
        }
    }
    judged.tally.complete(&[0, 11, 12, 13, 14]) & runs.complete(&[0, 14]) & lists.complete(&[0, 14])
}

/// The benchmark's families, each in four orders of its letters.
pub fn orders(rng: &mut Rng, _: usize) -> bool {
    let (mut runs, mut lists) = (Tally::new("run checker, in four orders"), Tally::new("strike checker, in four orders"));
    let mut checked = checkers::Checked { runs: &mut runs, lists: &mut lists };
    let mut judged = judge::Seen::new("judge, in four orders");
    for family in families().into_iter().chain(clashes()) {
        for bytes in in_orders(&family.sheet).expect("a good sheet") {
            let lent = Lent::filled(rng, [4096, 4096, 8192, 4096]);
            if !judge::agree(&mut judged, &bytes, &lent) || !checkers::papers(rng, &mut checked, &bytes) {
                return false;
            }
        }
    }
    judged.tally.complete(&[0, 13, 14]) & runs.complete(&[0, 14]) & lists.complete(&[0, 14])
}
