//! What a sheet says of states and moves, compiled to bit masks.
//!
//! Letters are a mask as in a [`State`]: letter k is the bit worth 2^(k-1). Lists
//! that name a letter and its opposite are settled once, here: such a pair adds
//! exactly one to a limit's count, makes an "or" true and an "and" false. What
//! is left names each letter at most once and fits in two masks.

use crate::sheet::{Limit, Sheet};
use crate::State;

/// Literals over distinct letters.
#[derive(Clone, Copy, Debug, PartialEq, Eq, PartialOrd, Ord)]
pub(crate) struct Literals {
    /// The letters named.
    pub named: State,
    /// Those of them that are named as not holding.
    pub negated: State,
}

impl Literals {
    /// The letters whose literal is true in the state.
    #[inline]
    pub fn true_in(self, state: State) -> State {
        (state ^ self.negated) & self.named
    }

    /// Joined by or.
    #[inline]
    pub fn any(self, state: State) -> bool {
        self.true_in(state) != 0
    }

    /// Joined by and.
    #[inline]
    pub fn all(self, state: State) -> bool {
        self.true_in(state) == self.named
    }
}

/// A list split into letters named one way only and letters named both ways.
pub(crate) struct List {
    pub literals: Literals,
    pub both: State,
}

/// Splits a list.
pub(crate) fn compile(list: &[i8]) -> List {
    let (mut holds, mut fails) = (0, 0);
    for &literal in list {
        // The reader has seen to it that the size is 1 to 24.
        let bit = 1 << (literal.unsigned_abs() - 1);
        if literal > 0 {
            holds |= bit;
        } else {
            fails |= bit;
        }
    }
    let both = holds & fails;
    List { literals: Literals { named: (holds | fails) & !both, negated: fails & !both }, both }
}

/// "From `least` to `most` of these are true."
#[derive(Clone, Copy, Debug)]
pub(crate) struct Count {
    pub literals: Literals,
    pub least: u32,
    pub most: u32,
}

impl Count {
    #[inline]
    pub fn holds(self, state: State) -> bool {
        let count = self.literals.true_in(state).count_ones();
        self.least <= count && count <= self.most
    }
}

/// A limit in compiled form.
enum Compiled {
    /// True of every state.
    Always,
    /// True of no state.
    Never,
    Count(Count),
}

fn compile_limit(limit: Limit<'_>) -> Compiled {
    let List { literals, both } = compile(limit.literals);
    // Each letter named both ways adds exactly one, whatever the state.
    let Some(bound) = u32::from(limit.bound).checked_sub(both.count_ones()) else {
        return Compiled::Never;
    };
    let size = literals.named.count_ones();
    let least = if limit.exactly { bound } else { 0 };
    if least > size {
        Compiled::Never
    } else if least == 0 && bound >= size {
        Compiled::Always
    } else {
        Compiled::Count(Count { literals, least, most: bound })
    }
}

/// A set of right sides, as bits. Two states that ask for the same right sides
/// have the same next states; the judge and the checker list those only once.
pub(crate) type Asked = [u64; 4];

/// A set of a page's rows, as bits: clauses in the first four words, limits in
/// the last.
pub(crate) type RowSet = [u64; 5];

/// The word of a [`RowSet`] that holds the limits.
pub(crate) const LIMITS: usize = 4;

/// What states are listed by. A *row* is a clause or a limit.
#[derive(Clone, Debug)]
pub(crate) struct Page {
    pub clauses: Vec<Literals>,
    pub limits: Vec<Count>,
    /// For each letter the rows that name it.
    naming: Vec<RowSet>,
}

impl Page {
    fn new(letters: u32, clauses: Vec<Literals>, limits: &[Count]) -> Page {
        let mut naming = vec![[0; 5]; letters as usize];
        let mut note = |named: State, word: usize, bit: usize| {
            for (letter, rows) in naming.iter_mut().enumerate() {
                rows[word] |= u64::from(named >> letter & 1) << bit;
            }
        };
        for (row, clause) in clauses.iter().enumerate() {
            note(clause.named, row / 64, row % 64);
        }
        for (row, limit) in limits.iter().enumerate() {
            note(limit.literals.named, LIMITS, row);
        }
        Page { clauses, limits: limits.to_vec(), naming }
    }

    /// These clauses and all limits.
    pub fn rows(&self, [a, b, c, d]: Asked) -> RowSet {
        [a, b, c, d, (1 << self.limits.len()) - 1]
    }

    /// All clauses and all limits.
    pub fn all_rows(&self) -> RowSet {
        let mut clauses = [0; 4];
        for row in 0..self.clauses.len() {
            clauses[row / 64] |= 1 << (row % 64);
        }
        self.rows(clauses)
    }

    /// Those of the rows that name some of the letters.
    #[inline]
    pub fn naming(&self, mut letters: State, rows: &RowSet) -> RowSet {
        let mut named = [0; 5];
        while letters != 0 {
            let naming = &self.naming[letters.trailing_zeros() as usize];
            for (word, more) in named.iter_mut().zip(naming) {
                *word |= more;
            }
            letters &= letters - 1;
        }
        for (word, row) in named.iter_mut().zip(rows) {
            *word &= row;
        }
        named
    }
}

/// A step rule whose right side is a clause of the page of next states.
#[derive(Clone, Copy, Debug)]
struct Step {
    left: Literals,
    right: usize,
}

/// A sheet's rules, ready for use.
#[derive(Clone, Debug)]
pub struct Rules {
    letters: u32,
    /// Some limit can never hold.
    lawless: bool,
    /// What first states are listed by: the first rules, without doubles.
    first: Page,
    /// What next states are listed by: the distinct right sides.
    next: Page,
    steps: Vec<Step>,
    promises: Vec<Literals>,
}

impl Rules {
    /// Compiles a sheet.
    pub fn new(sheet: &Sheet) -> Rules {
        let letters = sheet.letters();
        let mut lawless = false;
        let mut limits = Vec::new();
        for limit in sheet.limits() {
            match compile_limit(limit) {
                Compiled::Always => {}
                Compiled::Never => lawless = true,
                Compiled::Count(count) => limits.push(count),
            }
        }

        // An "or" that names a letter both ways asks nothing.
        let clause = |list: &[i8]| Some(compile(list)).filter(|list| list.both == 0);
        let without_doubles = |mut clauses: Vec<Literals>| {
            clauses.sort_unstable();
            clauses.dedup();
            clauses
        };
        let first = sheet.first_rules().filter_map(clause).map(|list| list.literals).collect();

        // An "and" that names a letter both ways never holds, so neither such a
        // left side nor such a right side ever asks anything.
        let steps: Vec<(Literals, Literals)> = sheet
            .step_rules()
            .filter_map(|step| Some((clause(step.left)?.literals, clause(step.right)?.literals)))
            .collect();
        let rights = without_doubles(steps.iter().map(|&(_, right)| right).collect());
        let steps = steps
            .into_iter()
            .filter_map(|(left, right)| {
                let right = rights.binary_search(&right).ok()?;
                Some(Step { left, right })
            })
            .collect();

        let promises = sheet.promises().iter().map(|&literal| compile(&[literal]).literals);
        Rules {
            letters,
            lawless,
            first: Page::new(letters, without_doubles(first), &limits),
            next: Page::new(letters, rights, &limits),
            steps,
            promises: promises.collect(),
        }
    }

    /// The number of letters.
    pub fn letters(&self) -> u32 {
        self.letters
    }

    /// The number p of promises.
    pub fn promises(&self) -> usize {
        self.promises.len()
    }

    /// Is this a state (below 2^n) in which every limit holds?
    pub fn lawful(&self, state: State) -> bool {
        state >> self.letters == 0
            && !self.lawless
            && self.next.limits.iter().all(|limit| limit.holds(state))
    }

    /// Is this a first state?
    pub fn first(&self, state: State) -> bool {
        self.lawful(state) && self.first.clauses.iter().all(|rule| rule.any(state))
    }

    /// Is there a move from one to the other?
    pub fn moves(&self, from: State, to: State) -> bool {
        self.lawful(from) && self.lawful(to) && self.follows(from, to)
    }

    /// Is promise `promise`, counted from 0, true in the state?
    #[inline]
    pub fn kept(&self, promise: usize, state: State) -> bool {
        self.promises[promise].any(state)
    }

    /// The step rules of a move alone, without the two states' limits.
    pub(crate) fn follows(&self, from: State, to: State) -> bool {
        self.steps.iter().all(|step| !step.left.all(from) || self.next.clauses[step.right].any(to))
    }

    /// The right sides that a state asks of the next one.
    pub(crate) fn asked(&self, state: State) -> Asked {
        let mut asked = [0; 4];
        for step in &self.steps {
            asked[step.right / 64] |= u64::from(step.left.all(state)) << (step.right % 64);
        }
        asked
    }

    /// What first states are listed by.
    pub(crate) fn first_page(&self) -> &Page {
        &self.first
    }

    /// What next states are listed by.
    pub(crate) fn next_page(&self) -> &Page {
        &self.next
    }

    /// Can no state be lawful, because of a single limit?
    pub(crate) fn lawless(&self) -> bool {
        self.lawless
    }
}
