//! A sheet before it is written down, and its writing down.

use super::parts::{Kind, Parts};

/// A sheet before it is written down. Lists may stand in any order.
#[derive(Clone, Debug, Default)]
pub struct Draft {
    /// The number of letters.
    pub letters: u8,
    /// Limits: exactly (or at most), the bound, the list.
    pub limits: Vec<(bool, u8, Vec<i8>)>,
    /// First rules.
    pub first: Vec<Vec<i8>>,
    /// Step rules, left and right.
    pub steps: Vec<(Vec<i8>, Vec<i8>)>,
    /// Promises.
    pub promises: Vec<i8>,
}

impl Draft {
    /// A draft with letters and no rules.
    pub fn new(letters: u8) -> Draft {
        Draft { letters, ..Draft::default() }
    }

    /// Adds "exactly `bound` of".
    pub fn exactly(&mut self, bound: u8, list: impl Into<Vec<i8>>) -> &mut Draft {
        self.limits.push((true, bound, list.into()));
        self
    }

    /// Adds "at most `bound` of".
    pub fn at_most(&mut self, bound: u8, list: impl Into<Vec<i8>>) -> &mut Draft {
        self.limits.push((false, bound, list.into()));
        self
    }

    /// Adds a first rule.
    pub fn first(&mut self, list: impl Into<Vec<i8>>) -> &mut Draft {
        self.first.push(list.into());
        self
    }

    /// Adds a step rule.
    pub fn step(&mut self, left: impl Into<Vec<i8>>, right: impl Into<Vec<i8>>) -> &mut Draft {
        self.steps.push((left.into(), right.into()));
        self
    }

    /// Adds a promise.
    pub fn promise(&mut self, literal: i8) -> &mut Draft {
        self.promises.push(literal);
        self
    }

    /// Writes the sheet down, lists in order and without doubles.
    pub fn bytes(&self) -> Vec<u8> {
        let mut sheet = Parts {
            header: [
                1,
                0,
                0,
                self.letters,
                self.limits.len() as u8,
                self.first.len() as u8,
                self.steps.len() as u8,
                self.promises.len() as u8,
            ],
            records: Vec::new(),
        };
        for (exactly, bound, list) in &self.limits {
            let mut record = vec![u8::from(!exactly), *bound];
            record.extend(in_order(list));
            sheet.records.push((Kind::Limit, record));
        }
        for list in &self.first {
            sheet.records.push((Kind::First, in_order(list)));
        }
        for (left, right) in &self.steps {
            let left = in_order(left);
            let mut record = vec![left.len() as u8];
            record.extend(left);
            record.extend(in_order(right));
            sheet.records.push((Kind::Step, record));
        }
        for &literal in &self.promises {
            sheet.records.push((Kind::Promise, vec![literal as u8]));
        }
        sheet.bytes()
    }
}

fn in_order(list: &[i8]) -> Vec<u8> {
    let mut list = list.to_vec();
    list.sort_unstable();
    list.dedup();
    list.into_iter().map(|literal| literal as u8).collect()
}
