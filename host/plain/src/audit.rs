//! The auditor of logs: recorded states held against a sheet, a piece at a time.
//!
//! It rests on the sheet reader and the rules, never on the judge. Any numbers
//! may be handed in as an account.

use crate::rules::{compile, Literals, Rules};
use crate::sheet::{self, Sheet};
use crate::State;

/// The most moments that an account may count, and the most of any tally.
pub const MOMENTS: u32 = 1_000_000;
/// How many tallies of each kind an account has.
pub const TALLIES: usize = 255;
/// How many numbers an account is for callers in C.
pub const NUMBERS: usize = 5 + 2 * TALLIES;

/// No breach.
pub const NOTHING: u32 = 0;
/// The state was unlawful.
pub const UNLAWFUL: u32 = 1;
/// The state was the log's first and broke a first rule.
pub const BROKE_FIRST: u32 = 2;
/// The move into the state broke a step rule.
pub const BROKE_STEP: u32 = 3;

/// Answered where the account, or the account with the piece, is past
/// [`MOMENTS`].
pub const PAST: u32 = 15;

/// What is known of a log so far.
#[derive(Clone, Debug, PartialEq, Eq)]
pub struct Account {
    /// How many moments there were.
    pub count: u32,
    /// The last state.
    pub last: State,
    /// What the first breach was.
    pub what: u32,
    /// Its moment, counted from 0 by order of arrival.
    pub moment: u32,
    /// The step rule that it broke, counted from 1, or 0.
    pub rule: u32,
    /// For each step rule, how often its left side led to a kept move.
    pub kept: [u32; TALLIES],
    /// And how often to a broken one.
    pub broken: [u32; TALLIES],
}

impl Account {
    /// The account of nothing yet.
    pub fn new() -> Account {
        Account {
            count: 0,
            last: 0,
            what: 0,
            moment: 0,
            rule: 0,
            kept: [0; TALLIES],
            broken: [0; TALLIES],
        }
    }

    /// The account that these numbers stand for.
    pub fn of_numbers(numbers: &[u32; NUMBERS]) -> Account {
        let mut account = Account::new();
        let [count, last, what, moment, rule] = [0, 1, 2, 3, 4].map(|i: usize| numbers[i]);
        (account.count, account.last) = (count, State::from(last));
        (account.what, account.moment, account.rule) = (what, moment, rule);
        account.kept.copy_from_slice(&numbers[5..5 + TALLIES]);
        account.broken.copy_from_slice(&numbers[5 + TALLIES..]);
        account
    }

    /// Its numbers.
    pub fn numbers(&self) -> [u32; NUMBERS] {
        let mut numbers = [0; NUMBERS];
        numbers[..5].copy_from_slice(&[
            self.count,
            self.last as u32,
            self.what,
            self.moment,
            self.rule,
        ]);
        numbers[5..5 + TALLIES].copy_from_slice(&self.kept);
        numbers[5 + TALLIES..].copy_from_slice(&self.broken);
        numbers
    }

    fn past(&self, more: usize) -> bool {
        let over = |&tally: &u32| tally > MOMENTS;
        self.count as usize + more > MOMENTS as usize
            || self.kept.iter().any(over)
            || self.broken.iter().any(over)
    }
}

impl Default for Account {
    fn default() -> Account {
        Account::new()
    }
}

/// A step rule as masks. A left side that names a letter both ways is never
/// true, such a right side always.
struct Step {
    left: Literals,
    right: Literals,
    never: bool,
    always: bool,
}

fn steps(sheet: &Sheet) -> Vec<Step> {
    let step = |step: sheet::Step<'_>| {
        let (left, right) = (compile(step.left), compile(step.right));
        Step {
            left: left.literals,
            right: right.literals,
            never: left.both != 0,
            always: right.both != 0,
        }
    };
    sheet.step_rules().map(step).collect()
}

/// Counts the move for every step rule; the first one broken, counted from 1.
fn tally(steps: &[Step], from: State, to: State, kept: &mut [u32], broken: &mut [u32]) -> u32 {
    let mut first = 0;
    for (i, step) in steps.iter().enumerate() {
        if step.never || !step.left.all(from) {
            continue;
        }
        if step.always || step.right.any(to) {
            kept[i] += 1;
        } else {
            broken[i] += 1;
            if first == 0 {
                first = i as u32 + 1;
            }
        }
    }
    first
}

/// Carries an account on by a piece of a log. A refusal leaves it as it was.
pub fn audit(sheet: &[u8], account: &mut Account, states: &[State]) -> u32 {
    let sheet = match sheet::read(sheet) {
        Err(fault) => return fault.number,
        Ok(sheet) => sheet,
    };
    if account.past(states.len()) {
        return PAST;
    }
    let (rules, steps) = (Rules::new(&sheet), steps(&sheet));
    for &state in states {
        let (what, rule) = if account.count == 0 {
            let what = if !rules.lawful(state) {
                UNLAWFUL
            } else if rules.first(state) {
                NOTHING
            } else {
                BROKE_FIRST
            };
            (what, 0)
        } else {
            let rule = tally(&steps, account.last, state, &mut account.kept, &mut account.broken);
            match rules.lawful(state) {
                false => (UNLAWFUL, 0),
                true if rule != 0 => (BROKE_STEP, rule),
                true => (NOTHING, 0),
            }
        };
        if account.what == NOTHING && what != NOTHING {
            (account.what, account.moment, account.rule) = (what, account.count, rule);
        }
        account.last = state;
        account.count += 1;
    }
    0
}
