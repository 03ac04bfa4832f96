//! Why a sheet cannot be kept, in brief: the step rules that fight, the first state with no way on, the first promise that fails; each with
//! the rules behind it.
//!
//! That the sheet cannot be kept and which states are struck is the proved judge's word; that step rules fight is the proved check's.
//! Which rules forbid a way on, or hold states away from a promise, is found here in plain code, within a bounded effort.

use crate::bytes;
use crate::input::Source;
use crate::model::{is_true, Limit, Literal, Rule, Sheet, State};
use crate::paper::REASONS;
use crate::plan::{plan_of_struck, Plan, Stage, Trial};
use crate::proved::{Judged, Room};
use crate::reach::{self, Effort, Found};
use crate::story::clash;
use plain::rules::Rules;
use plain::sheet::MOST_LIMITS;
use std::cell::Cell;
use std::collections::HashSet;
use std::time::{Duration, Instant};

/// So many moves are looked at in all to find the rules behind a promise, and so many of them with one rule left out; in so many seconds.
const MOVES: usize = 2_000_000;
const MOVES_AT_ONCE: usize = 100_000;
const PATIENCE: Duration = Duration::from_secs(3);

/// Why a sheet cannot be kept.
#[derive(Clone, Debug)]
pub struct Brief {
    /// The step rules that fight.
    pub fight: Fight,
    /// If there is no first state, the limits and first rules that leave none.
    pub no_first: Option<Vec<Rule>>,
    /// The states of the first round with no way on.
    pub dead_end: Option<DeadEnd>,
    /// The first promise that fails.
    pub unkept: Option<Unkept>,
}

/// The search for the step rules that fight.
#[derive(Clone, Debug)]
pub enum Fight {
    /// There is no first state, whatever the step rules are.
    NotAsked,
    /// These, counted from 0; the proved check has accepted them.
    Rules(Vec<usize>),
    /// In this trial more states could be reached than there is room for.
    Crowded(Trial),
    /// The effort was not enough: so many seconds.
    Stopped(u64),
    /// What was found is not what the proved check says. That cannot be as long as this command writes sheets rightly.
    Unaccepted(String),
}

/// States with no way on.
#[derive(Clone, Debug)]
pub struct DeadEnd {
    /// How many there are.
    pub states: usize,
    /// The first of them.
    pub state: State,
    /// The limits and step rules that cannot be met together after it.
    pub rules: Vec<Rule>,
}

/// States from which a promise can no longer be kept.
#[derive(Clone, Debug)]
pub struct Unkept {
    /// The promise, counted from 0.
    pub promise: usize,
    /// How many such states its first round has.
    pub states: usize,
    /// The first of them.
    pub state: State,
    /// Step rules that, with the limits, let no way lead from them to a state that keeps the promise and is not struck before.
    pub rules: Vec<usize>,
    /// Whether it is certain that none of these rules can be spared.
    pub certain: bool,
}

/// Looks for the reasons behind a strike list of the judge. The fight is looked for at most so long.
pub fn of(source: &Source, judged: &Judged, seconds: u64) -> Brief {
    let until = Instant::now() + Duration::from_secs(seconds);
    if judged.table.is_empty() {
        let rules = clash::smallest(&source.sheet, clash::on_first(&source.sheet), &Cell::new(clash::PATIENCE));
        return Brief { fight: Fight::NotAsked, no_first: Some(rules), dead_end: None, unkept: None };
    }
    Brief { fight: fight(source, until, seconds), ..reasons(source, judged) }
}

/// The first dead end and the first promise that fails; the fight is not looked for.
pub fn reasons(source: &Source, judged: &Judged) -> Brief {
    Brief {
        fight: Fight::NotAsked,
        no_first: None,
        dead_end: dead_end(&source.sheet, judged),
        unkept: unkept(&source.sheet, judged, Effort { moves: MOVES, until: Instant::now() + PATIENCE }),
    }
}

/// The step rules that fight, put to the proved check.
fn fight(source: &Source, until: Instant, seconds: u64) -> Fight {
    let mut room = Room::new();
    match plan_of_struck(source, &mut room, &mut |_: Stage| Instant::now() < until) {
        Plan::Fight(chosen) => {
            let numbers: Vec<u32> = chosen.iter().map(|&rule| rule as u32 + 1).collect();
            match room.check_clash(&source.bytes, &numbers) {
                0 => Fight::Rules(chosen),
                answer => Fight::Unaccepted(format!("the proved check answers {answer} to {numbers:?}")),
            }
        }
        Plan::Crowded(trial) => Fight::Crowded(trial),
        Plan::Stopped => Fight::Stopped(seconds),
        Plan::Kept => Fight::Unaccepted("the sheet can be kept after all".to_string()),
    }
}

/// The states with this word, in the order of the strike list.
fn with_word(judged: &Judged, word: u32) -> Vec<State> {
    judged.table.iter().zip(&judged.words).filter(|(_, &other)| other == word).map(|(&state, _)| state).collect()
}

/// The states of round 1 with no way on, and why the first of them has none.
fn dead_end(sheet: &Sheet, judged: &Judged) -> Option<DeadEnd> {
    let states = with_word(judged, REASONS);
    let &state = states.first()?;
    let rules = clash::smallest(sheet, clash::after(sheet, state), &Cell::new(clash::PATIENCE));
    Some(DeadEnd { states: states.len(), state, rules })
}

/// The first states that are struck for a promise, and the step rules that hold them.
fn unkept(sheet: &Sheet, judged: &Judged, effort: Effort) -> Option<Unkept> {
    let word = *judged.words.iter().find(|&word| word % REASONS != 0)?;
    let promise = (word % REASONS) as usize - 1;
    let states = with_word(judged, word);
    let before: HashSet<State> = judged.table.iter().zip(&judged.words).filter(|(_, &other)| other < word).map(|(&s, _)| s).collect();
    let (rules, certain) = holding(sheet, &states, &before, promise, effort);
    Some(Unkept { promise, states: states.len(), state: states[0], rules, certain })
}

/// The step rules that are left when each, from the last to the first, is left out wherever the states are still held; and whether that is
/// certain of each of them.
fn holding(sheet: &Sheet, states: &[State], before: &HashSet<State>, promise: usize, mut effort: Effort) -> (Vec<usize>, bool) {
    let (mut chosen, mut certain): (Vec<usize>, bool) = ((0..sheet.steps.len()).collect(), true);
    for rule in (0..sheet.steps.len()).rev() {
        let without: Vec<usize> = chosen.iter().copied().filter(|&other| other != rule).collect();
        match way_out(&sheet.with_steps(&without), states, before, promise, &mut effort) {
            Found::All(_) => chosen = without,
            Found::Goal => {}
            Found::Unknown => certain = false,
        }
    }
    (chosen, certain)
}

/// Does a way lead from these states to one that keeps the promise, past none that was struck before?
fn way_out(sheet: &Sheet, states: &[State], before: &HashSet<State>, promise: usize, effort: &mut Effort) -> Found {
    let mut at_once = Effort { moves: effort.moves.min(MOVES_AT_ONCE), ..*effort };
    let allowed = at_once.moves;
    let literal = sheet.promises[promise];
    // Where nothing was struck before, letters that no rule names play no part, so one value is enough for them.
    let idle = if before.is_empty() && sheet.limits.len() < usize::from(MOST_LIMITS) { unnamed(sheet, literal) } else { Vec::new() };
    let mask = idle.iter().fold(State::MAX, |mask, &letter| mask & !(1 << (letter - 1)));
    let states: Vec<State> = states.iter().map(|&state| state & mask).collect();
    let mut sheet = sheet.clone();
    if !idle.is_empty() {
        sheet.limits.push(Limit { exactly: true, bound: 0, list: idle });
    }
    let rules = Rules::new(&plain::sheet::read(&bytes::write(&sheet)).expect("a good sheet"));
    let found =
        reach::from_states(&sheet, &rules, &states, &|state| before.contains(&state), &|state| is_true(literal, state), &mut at_once);
    effort.moves -= allowed - at_once.moves;
    found
}

/// The letters that neither a limit nor a step rule nor the promise names.
fn unnamed(sheet: &Sheet, promise: Literal) -> Vec<Literal> {
    let limits = sheet.limits.iter().flat_map(|limit| &limit.list);
    let steps = sheet.steps.iter().flat_map(|step| step.left.iter().chain(&step.right));
    let named: HashSet<u8> = limits.chain(steps).chain([&promise]).map(|literal| literal.unsigned_abs()).collect();
    (1..=sheet.names.len() as Literal).filter(|letter| !named.contains(&letter.unsigned_abs())).collect()
}
