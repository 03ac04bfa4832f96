//! The slices that a judge is lent, for tests: made, and compared whole.

use crate::make::Rng;
use crate::State;

/// Table, words, scratch and run.
#[derive(Clone, Debug, PartialEq, Eq)]
pub struct Lent {
    /// Room for states.
    pub table: Vec<State>,
    /// Room for words.
    pub words: Vec<u32>,
    /// Room for twice as many states.
    pub scratch: Vec<State>,
    /// Room for a sample run.
    pub run: Vec<State>,
}

impl Lent {
    /// Slices of these lengths with the same number all over.
    pub fn all(number: u32, [table, words, scratch, run]: [usize; 4]) -> Lent {
        let state = State::from(number);
        Lent {
            table: vec![state; table],
            words: vec![number; words],
            scratch: vec![state; scratch],
            run: vec![state; run],
        }
    }

    /// Slices of these lengths with numbers that are not zero.
    pub fn filled(rng: &mut Rng, [table, words, scratch, run]: [usize; 4]) -> Lent {
        Lent {
            table: (0..table).map(|_| rng.number() as State | 1).collect(),
            words: (0..words).map(|_| rng.number() as u32 | 1).collect(),
            scratch: (0..scratch).map(|_| rng.number() as State | 1).collect(),
            run: (0..run).map(|_| rng.number() as State | 1).collect(),
        }
    }

    /// How long they are.
    pub fn lengths(&self) -> [usize; 4] {
        [self.table.len(), self.words.len(), self.scratch.len(), self.run.len()]
    }

    /// Whether this number stands in all places.
    pub fn is_all(&self, number: u32) -> bool {
        *self == Lent::all(number, self.lengths())
    }
}
