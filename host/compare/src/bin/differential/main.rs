//! The differential test: the proved library against the plain one, on many sheets and papers, right and damaged.
//!
//! `differential [SEED [ROUNDS]]`. Every round makes sheets anew from the seed. A difference is printed with its sheet and ends its suite;
//! the last line is 'N passed, M failed', where each suite that found no difference and saw every answer it should see counts as one.

#![deny(warnings)]

mod audit;
mod checkers;
mod clash;
mod class;
mod judge;
mod reader;
mod serial;
mod written;

use plain::edges::PLACES;
use plain::make::Rng;
use std::collections::BTreeSet;

/// The numbers of documents 01 and 02 are below this.
const NUMBERS: usize = 28;

/// How often each answer occurred.
pub struct Tally {
    name: &'static str,
    seen: [u64; NUMBERS],
}

impl Tally {
    /// A tally that has seen nothing.
    pub fn new(name: &'static str) -> Tally {
        Tally { name, seen: [0; NUMBERS] }
    }

    /// Counts an answer.
    pub fn count(&mut self, answer: u32) {
        self.seen[answer as usize] += 1;
    }

    /// Prints the tally; whether each of the wanted answers occurred.
    pub fn complete(&self, wanted: &[usize]) -> bool {
        print!("{}:", self.name);
        for (answer, times) in self.seen.iter().enumerate() {
            if wanted.contains(&answer) || *times > 0 {
                print!(" {answer}={times}");
            }
        }
        println!();
        let missing: Vec<&usize> = wanted.iter().filter(|&&answer| self.seen[answer] == 0).collect();
        if !missing.is_empty() {
            println!("{}: never saw {missing:?}", self.name);
        }
        missing.is_empty()
    }
}

/// The places at which each fault occurred.
pub struct Places {
    name: &'static str,
    seen: BTreeSet<(u32, usize)>,
}

impl Places {
    /// Nothing seen.
    pub fn new(name: &'static str) -> Places {
        Places { name, seen: BTreeSet::new() }
    }

    /// Keeps a fault's place; 0 is no fault.
    pub fn keep(&mut self, number: u32, place: u32) {
        if (1..=10).contains(&number) {
            self.seen.insert((number, place as usize));
        }
    }

    /// Prints how many there were; whether each fault occurred at its first and at its last possible place, and none outside.
    pub fn complete(&self) -> bool {
        let mut right = true;
        print!("{}, different places of each fault:", self.name);
        for (number, first, last) in PLACES {
            let places: Vec<usize> = self.seen.iter().filter(|seen| seen.0 == number).map(|seen| seen.1).collect();
            print!(" {number}={}", places.len());
            right &= places.first() == Some(&first) && places.last() == Some(&last);
        }
        println!();
        if !right {
            println!("{}: some fault was never seen at its first or its last place, or was seen outside", self.name);
        }
        right
    }
}

/// Sheets of a boundary size: 0, 7, 8, 4,096 and 4,097 bytes, and the header's counts at their bounds.
pub fn boundary_sheets(rng: &mut Rng) -> Vec<Vec<u8>> {
    let mut sheets = Vec::new();
    for length in [0usize, 1, 7, 8, 9, 4095, 4096, 4097, 5000] {
        let mut sheet: Vec<u8> = (0..length).map(|_| rng.byte()).collect();
        sheets.push(sheet.clone());
        if length >= 8 {
            sheet[0] = 1;
            sheet[1] = (length >> 8) as u8;
            sheet[2] = length as u8;
            for letters in [0u8, 1, 24, 25, 255] {
                sheet[3] = letters;
                for (limits, promises) in [(0u8, 0u8), (32, 16), (33, 16), (32, 17), (255, 255)] {
                    sheet[4] = limits;
                    sheet[7] = promises;
                    sheets.push(sheet.clone());
                }
            }
        }
    }
    sheets
}

/// Whether two outcomes differ; if so, both are printed with the sheet.
pub fn differs<T: PartialEq + std::fmt::Debug + ?Sized>(what: &str, sheet: &[u8], ours: &T, plain: &T) -> bool {
    if ours == plain {
        return false;
    }
    println!("{what} differs\n  proved {ours:?}\n  plain {plain:?}\n  sheet {sheet:02x?}");
    true
}

/// A suite: its name, and what runs it over so many rounds.
type Suite = (&'static str, fn(&mut Rng, usize) -> bool);

const SUITES: &[Suite] = &[
    // Sheets whole and damaged.
    ("reader", reader::suite),
    // Sheets in pieces.
    ("serial", serial::suite),
    // Papers right, damaged and made up.
    ("checkers", checkers::suite),
    // Long papers, many next states.
    ("checkers, large", checkers::large),
    // Logs in pieces, accounts of anything.
    ("audit", audit::suite),
    // Random sheets with random slices.
    ("judge", judge::suite),
    // Many states, long runs, many rounds.
    ("judge, large", judge::large),
    // Letters that say something of others, in any order.
    ("sheets as written", written::suite),
    // The benchmark's families.
    ("sheets in four orders", written::orders),
    // Random classes, whole and with disturbed ends.
    ("class", class::suite),
    // Sheets whose rules fight, with much room and little; proposals of every kind.
    ("clash", clash::suite),
];

fn main() {
    let mut arguments = std::env::args().skip(1);
    let seed = arguments.next().map_or(1, |s| s.parse().expect("the seed is a number"));
    let rounds = arguments.next().map_or(4000, |s| s.parse().expect("the rounds are a number"));
    let mut rng = Rng::new(seed);
    let mut failed = 0;
    for (name, suite) in SUITES {
        let start = std::time::Instant::now();
        let same = suite(&mut rng, rounds);
        println!("{name}: {} in {:.1} s", if same { "no difference" } else { "FAILED" }, start.elapsed().as_secs_f64());
        failed += usize::from(!same);
    }
    println!("{} passed, {failed} failed", SUITES.len() - failed);
    std::process::exit(i32::from(failed > 0));
}
