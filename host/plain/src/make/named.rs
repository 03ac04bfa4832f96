//! The families of a benchmark, each sheet with its name.

use super::counters::{counter, counter_to_dead_end, falling_promises, long_run};
use super::random::{formula, machine};
use super::shapes::{dense, exactly, free, w15};
use super::{Draft, Rng};

/// A named sheet for a benchmark.
#[derive(Clone, Debug)]
pub struct Family {
    /// What it is.
    pub name: String,
    /// The sheet.
    pub sheet: Vec<u8>,
}

/// The families of a benchmark; random ones are always the same.
pub fn families() -> Vec<Family> {
    let mut families = Vec::new();
    let mut add = |name: &str, draft: Draft| {
        families.push(Family { name: name.to_string(), sheet: draft.bytes() });
    };
    add("W15, the robots", w15());
    add("20 letters, exactly 3 hold", exactly(20, 3));
    add("12 letters, no rules", free(12));
    add("14 letters, no rules", free(14));
    add("24 letters, no rules", free(24));
    add("counter of 12 letters", counter(12));
    add("counter of 12 letters to a dead end", counter_to_dead_end(12));
    add("chain of 4,096 falling for promises", falling_promises(8));
    add("run of 4,096 times 16 moments", long_run(12, 16));
    add("12 letters, nearly every move", dense(12));
    let mut rng = Rng::new(2026);
    for letters in [5, 8, 10, 12, 14, 16, 20] {
        for number in 1..=3 {
            let name = format!("formula {number} of {letters} letters");
            add(&name, formula(&mut rng, letters));
        }
    }
    for letters in [5, 8, 12, 16, 20] {
        for number in 1..=3 {
            let name = format!("machine {number} of {letters} states");
            add(&name, machine(&mut rng, letters));
        }
    }
    families
}
