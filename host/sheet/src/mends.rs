//! What step rules fight against, and which single rule mends a sheet: trials with the proved judge, told one by one.
//!
//! Fewer rules never forbid more: whatever obeys a sheet obeys it without a rule, too. So a rule outside a choice that cannot be kept mends
//! nothing, and is not tried.

use crate::bytes;
use crate::input::Source;
use crate::model::{Rule, Sheet};
use crate::proved::Room;

/// The judge's answers, lent no room for a run.
const MORE_STATES: u32 = 11;
const CAN_BE_KEPT: u32 = 12;

/// Rules that were tried by leaving them out.
#[derive(Clone, Debug, Default, PartialEq, Eq)]
pub struct Tried {
    /// Without any one of these the rest can be kept.
    pub yes: Vec<Rule>,
    /// Without one of these there is no room to say.
    pub unknown: Vec<Rule>,
}

impl Tried {
    /// How many rules are not known to be spared.
    fn size(&self) -> usize {
        self.yes.len() + self.unknown.len()
    }

    /// Notes a judge's answer to a sheet without this rule.
    fn note(&mut self, rule: Rule, answer: u32) {
        match answer {
            CAN_BE_KEPT => self.yes.push(rule),
            MORE_STATES => self.unknown.push(rule),
            _ => {}
        }
    }
}

/// The limits, first rules and promises that the chosen step rules, which cannot be kept, fight against. Each is left out wherever the rest
/// still cannot be kept, once from the last to the first and once from the first to the last, and the shorter list counts. Tells each trial
/// before it is made: which it is, of how many.
pub fn against(source: &Source, chosen: &[usize], room: &mut Room, tell: &mut impl FnMut(usize, usize)) -> Tried {
    let mut rules: Vec<Rule> = source.sheet.rules();
    rules.retain(|rule| !matches!(rule, Rule::Step(at) if !chosen.contains(at)));
    let forth: Vec<Rule> = rules.iter().copied().filter(|rule| !matches!(rule, Rule::Step(_))).collect();
    let back: Vec<Rule> = forth.iter().rev().copied().collect();
    let of = 2 * forth.len();
    let late = needed(source, rules.clone(), &back, room, &mut |at| tell(at, of));
    let early = needed(source, rules, &forth, room, &mut |at| tell(forth.len() + at, of));
    if (early.size(), early.unknown.len()) < (late.size(), late.unknown.len()) {
        early
    } else {
        late
    }
}

/// What is left when each of these is left out in turn wherever the rest cannot be kept.
fn needed(source: &Source, mut rules: Vec<Rule>, turns: &[Rule], room: &mut Room, tell: &mut impl FnMut(usize)) -> Tried {
    let mut tried = Tried::default();
    for (at, &rule) in turns.iter().enumerate() {
        tell(at + 1);
        let answer = room.answer(&bytes::write(&only(&source.sheet, &rules, rule)));
        tried.note(rule, answer);
        if answer != CAN_BE_KEPT && answer != MORE_STATES {
            rules.retain(|&other| other != rule);
        }
    }
    tried.yes.sort_unstable();
    tried.unknown.sort_unstable();
    tried
}

/// Which of these rules, each left out of the whole sheet by itself, let it be kept. Tells each trial before it is made.
pub fn mends(source: &Source, rules: &[Rule], room: &mut Room, tell: &mut impl FnMut(usize, usize)) -> Tried {
    let all = source.sheet.rules();
    let mut tried = Tried::default();
    for (at, &rule) in rules.iter().enumerate() {
        tell(at + 1, rules.len());
        tried.note(rule, room.answer(&bytes::write(&only(&source.sheet, &all, rule))));
    }
    tried
}

/// The sheet with these rules alone, and without this one.
fn only(sheet: &Sheet, rules: &[Rule], left_out: Rule) -> Sheet {
    sheet.only(|rule| rule != left_out && rules.contains(&rule))
}
