//! All breaches of a log, by the proved audit. It tells the first breach of an account; after each one the account is handed back with what
//! it says of a breach set to 0, and the next state is then held against the sheet as if nothing had happened.

use crate::log::read::Piece;
use crate::model::{Rule, Sheet, State};
use crate::proved::{self, Account};
use std::collections::BTreeMap;

/// The most states that are audited in one call.
const MOST_AT_ONCE: usize = 1 << 16;
/// So many breaches are told, unless all are asked for.
pub const MOST_TOLD: usize = 20;

/// What was broken. Kind and step rule are the proved audit's; which limit or first rule, this command looks for. All are counted from 1.
#[derive(Clone, Copy, Debug, PartialEq, Eq, PartialOrd, Ord)]
pub enum What {
    /// The number is no state of the sheet.
    NoState,
    /// A limit.
    Limit(usize),
    /// A first rule.
    First(usize),
    /// A step rule.
    Step(usize),
}

impl What {
    /// The rule of the sheet that was broken.
    pub fn rule(self, sheet: &Sheet) -> Option<Rule> {
        let (rule, many) = match self {
            What::NoState => return None,
            What::Limit(number) => (Rule::Limit(number.checked_sub(1)?), sheet.limits.len()),
            What::First(number) => (Rule::First(number.checked_sub(1)?), sheet.first.len()),
            What::Step(number) => (Rule::Step(number.checked_sub(1)?), sheet.steps.len()),
        };
        (rule.number() <= many).then_some(rule)
    }
}

/// A moment of a log: its time if it has one, and its state.
#[derive(Clone, Debug)]
pub struct Moment {
    /// The time, as the log writes it.
    pub time: Option<String>,
    /// The state.
    pub state: State,
}

/// A breach: its moment, and the moment before, unless it was the log's first.
#[derive(Clone, Debug)]
pub struct Breach {
    /// What was broken.
    pub what: What,
    /// The number of its moment.
    pub number: usize,
    /// The moment before.
    pub before: Option<Moment>,
    /// The moment of the breach.
    pub at: Moment,
}

/// The breaches of one thing.
#[derive(Clone, Copy, Debug)]
pub struct Tally {
    /// How many.
    pub count: usize,
    /// The moment of the first.
    pub first: usize,
    /// The moment of the last.
    pub last: usize,
}

/// A log that is being audited.
pub struct Audit<'s> {
    sheet: &'s Sheet,
    bytes: &'s [u8],
    all: bool,
    /// The proved account; what it says of a breach is 0 between pieces.
    pub account: Account,
    /// The breaches that are told.
    pub told: Vec<Breach>,
    /// How many breaches there were of each thing.
    pub tallies: BTreeMap<What, Tally>,
    last: Option<Moment>,
    stride: usize,
}

impl<'s> Audit<'s> {
    /// The audit of nothing yet, of a sheet and its bytes; with all breaches told, or with the first of them.
    pub fn new(sheet: &'s Sheet, bytes: &'s [u8], all: bool) -> Audit<'s> {
        let (told, tallies) = (Vec::new(), BTreeMap::new());
        Audit { sheet, bytes, all, account: Account::new(), told, tallies, last: None, stride: MOST_AT_ONCE }
    }

    /// How many breaches there were.
    pub fn count(&self) -> usize {
        self.tallies.values().map(|tally| tally.count).sum()
    }

    /// Goes on by a piece; or the proved audit's answer if it takes no more.
    pub fn take(&mut self, piece: &Piece) -> Result<(), u32> {
        let mut from = 0;
        while from < piece.states.len() {
            let to = piece.states.len().min(from + self.stride);
            let before = self.account.clone();
            self.carry(&piece.states[from..to])?;
            if self.account.what() == 0 {
                from = to;
                self.stride = (2 * self.stride).min(MOST_AT_ONCE);
                continue;
            }
            let at = from + self.account.moment() as usize - before.count() as usize;
            if at + 1 < to {
                self.account = before;
                self.carry(&piece.states[from..=at])?;
            }
            self.note(piece, at);
            self.account.pardon();
            // The next breach is likely as far away as this one was; what lies behind it would be audited twice.
            self.stride = at + 1 - from;
            from = at + 1;
        }
        if let Some(at) = piece.states.len().checked_sub(1) {
            self.last = Some(moment(piece, at));
        }
        Ok(())
    }

    fn carry(&mut self, states: &[State]) -> Result<(), u32> {
        match proved::audit(self.bytes, &mut self.account, states) {
            0 => Ok(()),
            answer => Err(answer),
        }
    }

    /// Notes the account's breach, which is at this place of the piece.
    fn note(&mut self, piece: &Piece, at: usize) {
        let (what, number) = (self.what(piece.states[at]), self.account.moment() as usize);
        let tally = self.tallies.entry(what).or_insert(Tally { count: 0, first: number, last: number });
        tally.count += 1;
        tally.last = number;
        if self.all || self.told.len() < MOST_TOLD {
            let before = if at > 0 { Some(moment(piece, at - 1)) } else { self.last.clone() };
            self.told.push(Breach { what, number, before, at: moment(piece, at) });
        }
    }

    fn what(&self, state: State) -> What {
        let counted = |at: Option<usize>| at.map_or(0, |at| at + 1);
        match self.account.what() {
            1 if !self.sheet.has(state) => What::NoState,
            1 => What::Limit(counted(self.sheet.broken_limit(state))),
            2 => What::First(counted(self.sheet.broken_first(state))),
            _ => What::Step(self.account.rule() as usize),
        }
    }
}

/// A moment of a piece.
fn moment(piece: &Piece, at: usize) -> Moment {
    Moment { time: piece.times.get(at).cloned(), state: piece.states[at] }
}
