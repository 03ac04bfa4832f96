//! Which step rules fight: the trials of document 02's planner, one by one with the proved judge, so that each can be told.
//!
//! What comes out is a proposal. Whoever shows it puts it to the proved check first.

use crate::bytes;
use crate::input::Source;
use crate::proved::Room;

/// The judge's answers to a sheet, lent no room for a run.
const MORE_STATES: u32 = 11;
const CAN_BE_KEPT: u32 = 12;
const CANNOT_BE_KEPT: u32 = 13;

/// Where the trials ended. Rules are counted from 0.
#[derive(Clone, Debug, PartialEq, Eq)]
pub enum Plan {
    /// The whole sheet can be kept.
    Kept,
    /// More states can be reached than there is room for, in this trial.
    Crowded(Trial),
    /// With these rules alone the sheet cannot be kept, and with each single one left out it can.
    Fight(Vec<usize>),
    /// Whoever asked wanted no more trials.
    Stopped,
}

/// Why the trials ended before their end.
enum End {
    Crowded(Trial),
    Stopped,
}

/// A sheet that was tried: without the rules dropped so far, and without one more.
#[derive(Clone, Debug, PartialEq, Eq)]
pub struct Trial {
    /// The rules dropped so far, the first of them first.
    pub dropped: Vec<usize>,
    /// The rule left out besides; none in the trial of the whole sheet.
    pub left_out: Option<usize>,
}

/// How far the trials are.
#[derive(Clone, Copy, Debug)]
pub enum Stage {
    /// From the last rule to the first: this rule of so many, both counted from 1.
    Dropping(usize, usize),
    /// Each rule of the choice left out by itself: this one of so many, both counted from 1.
    LeavingOut(usize, usize),
}

/// Drops rules from the last to the first wherever the sheet still cannot be kept, then tries the choice with each rule left out. Tells each
/// of these trials before it is made, and makes it only if it is told to go on.
pub fn plan(source: &Source, room: &mut Room, go_on: &mut impl FnMut(Stage) -> bool) -> Plan {
    match room.answer(&source.bytes) {
        MORE_STATES => Plan::Crowded(Trial { dropped: Vec::new(), left_out: None }),
        CAN_BE_KEPT => Plan::Kept,
        _ => plan_of_struck(source, room, go_on),
    }
}

/// The same for a sheet that cannot be kept, as is known already.
pub fn plan_of_struck(source: &Source, room: &mut Room, go_on: &mut impl FnMut(Stage) -> bool) -> Plan {
    match needed(source, room, go_on).and_then(|chosen| each_left_out(source, chosen, room, go_on)) {
        Ok(chosen) => Plan::Fight(chosen),
        Err(End::Crowded(trial)) => Plan::Crowded(trial),
        Err(End::Stopped) => Plan::Stopped,
    }
}

/// The rules that are left when each, from the last to the first, is dropped wherever the rest cannot be kept; or the trial without room.
fn needed(source: &Source, room: &mut Room, go_on: &mut impl FnMut(Stage) -> bool) -> Result<Vec<usize>, End> {
    let rules = source.sheet.steps.len();
    let mut chosen: Vec<usize> = (0..rules).collect();
    for rule in (0..rules).rev() {
        if !go_on(Stage::Dropping(rule + 1, rules)) {
            return Err(End::Stopped);
        }
        if answer_without(source, &chosen, rule, room)? == CANNOT_BE_KEPT {
            chosen = without(&chosen, rule);
        }
    }
    Ok(chosen)
}

/// Fewer rules that cannot be kept, for a sheet in whose search there was no room: each, from the last to the first, is dropped wherever
/// the judge says that the rest cannot be kept. Where there is no room to say it stays, so some of them may not be needed.
pub fn narrowed(source: &Source, room: &mut Room, tell: &mut impl FnMut(Stage)) -> Vec<usize> {
    let rules = source.sheet.steps.len();
    let mut chosen: Vec<usize> = (0..rules).collect();
    for rule in (0..rules).rev() {
        tell(Stage::Dropping(rule + 1, rules));
        let rest = without(&chosen, rule);
        if room.answer(&bytes::write(&source.sheet.with_steps(&rest))) == CANNOT_BE_KEPT {
            chosen = rest;
        }
    }
    chosen
}

/// The same choice, if there is room to judge it with each rule left out. With fewer of the other rules than before, a rule that was needed
/// is needed still, but more states may be reached.
fn each_left_out(source: &Source, chosen: Vec<usize>, room: &mut Room, go_on: &mut impl FnMut(Stage) -> bool) -> Result<Vec<usize>, End> {
    for (at, &rule) in chosen.iter().enumerate() {
        if !go_on(Stage::LeavingOut(at + 1, chosen.len())) {
            return Err(End::Stopped);
        }
        answer_without(source, &chosen, rule, room)?;
    }
    Ok(chosen)
}

/// The judge's answer for the chosen rules without this one, or the trial if there is no room.
fn answer_without(source: &Source, chosen: &[usize], rule: usize, room: &mut Room) -> Result<u32, End> {
    let sheet = source.sheet.with_steps(&without(chosen, rule));
    match room.answer(&bytes::write(&sheet)) {
        MORE_STATES => {
            let dropped = (0..source.sheet.steps.len()).filter(|other| !chosen.contains(other)).collect();
            Err(End::Crowded(Trial { dropped, left_out: Some(rule) }))
        }
        answer => Ok(answer),
    }
}

/// A choice without this rule.
pub fn without(chosen: &[usize], rule: usize) -> Vec<usize> {
    chosen.iter().copied().filter(|&other| other != rule).collect()
}
