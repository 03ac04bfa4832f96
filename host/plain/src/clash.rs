//! Which rules fight: a check of proposed step rules, and a planner that
//! proposes some.
//!
//! Step rules are numbered from 1 in the sheet's order. A choice of them is said
//! to fight if the sheet with only these step rules cannot be kept, and can be
//! kept with any single one of them left out.

use crate::judge::judge_good;
use crate::sheet::{read, Sheet};
use crate::State;

/// The most step rules of a sheet.
pub const RULES: usize = 255;
/// The planner's answer to a sheet that can be kept.
pub const KEPT: u32 = 12;
/// The check's answer to a proposal that is not accepted.
pub const NOT_ACCEPTED: u32 = 14;
/// The answer where a sheet that was tried has more states than there is room
/// for.
pub const CROWDED: u32 = 17;

/// What the judge says of one sheet, with no room for a run.
#[derive(Clone, Copy, Debug, PartialEq, Eq)]
enum Said {
    /// 11: more states than there is room for.
    Crowded,
    /// 12: it can be kept.
    Kept,
    /// 13: it cannot be kept.
    Cannot,
}

/// A good sheet, the lent slices, and how many choices of its step rules have
/// been judged with them.
struct Trials<'a> {
    sheet: Sheet,
    table: &'a mut [State],
    words: &'a mut [u32],
    scratch: &'a mut [State],
    count: usize,
}

impl Trials<'_> {
    /// Judges the sheet with only these step rules.
    fn only(&mut self, choice: &[usize]) -> Said {
        self.count += 1;
        let sheet = self.sheet.with_steps(choice);
        match judge_good(&sheet, self.table, self.words, self.scratch, &mut []).answer {
            11 => Said::Crowded,
            12 => Said::Kept,
            13 => Said::Cannot,
            other => unreachable!("a run of no moments: {other}"),
        }
    }

    /// Judges the sheet with each single rule of a choice left out, in turn.
    fn each_less(&mut self, choice: &[usize]) -> Vec<Said> {
        choice.iter().map(|&rule| self.only(&without(choice, rule))).collect()
    }

    /// Zeros in all slices.
    fn clear(&mut self) {
        self.table.fill(0);
        self.words.fill(0);
        self.scratch.fill(0);
    }
}

/// A choice with one rule left out.
fn without(choice: &[usize], left_out: usize) -> Vec<usize> {
    choice.iter().copied().filter(|&rule| rule != left_out).collect()
}

/// Checks a proposed choice: 0 if it fights, 14 if not, 17 if one of the sheets
/// it asks about has more states than there is room for; 1 to 10 for a bad
/// sheet.
///
/// A bad sheet, and numbers that do not rise or are none of the sheet's, which
/// get 14, leave the slices alone. Otherwise they are zero.
pub fn check_clash(
    sheet: &[u8],
    rules: &[u32],
    table: &mut [State],
    words: &mut [u32],
    scratch: &mut [State],
) -> u32 {
    let sheet = match read(sheet) {
        Ok(sheet) => sheet,
        Err(fault) => return fault.number,
    };
    let numbers = 1..=sheet.step_rules().count() as u32;
    if !rules.iter().all(|rule| numbers.contains(rule)) || !rules.is_sorted_by(|a, b| a < b) {
        return NOT_ACCEPTED;
    }
    let choice: Vec<usize> = rules.iter().map(|&rule| rule as usize).collect();
    let mut trials = Trials { sheet, table, words, scratch, count: 0 };
    let together = trials.only(&choice);
    let each_less = trials.each_less(&choice);
    trials.clear();
    if together == Said::Crowded || each_less.contains(&Said::Crowded) {
        CROWDED
    } else if together == Said::Cannot && each_less.iter().all(|&said| said == Said::Kept) {
        0
    } else {
        NOT_ACCEPTED
    }
}

/// What the planner says.
#[derive(Clone, Debug, Default, PartialEq, Eq)]
pub struct Plan {
    /// 0 with a choice; 12 for a sheet that can be kept; 17 where a sheet that
    /// was tried has more states than there is room for; 1 to 10 for a bad one.
    pub answer: u32,
    /// The chosen rules, ascending; none but with 0.
    pub rules: Vec<u32>,
    /// How many sheets were judged: the whole one, one for each of its step
    /// rules, one for each rule of the choice; fewer where that ended early.
    pub trials: usize,
}

impl Plan {
    /// A mark for each of 255 rules: 1 if it is chosen, else 0.
    pub fn marks(&self) -> [u8; RULES] {
        let mut marks = [0; RULES];
        for &rule in &self.rules {
            marks[rule as usize - 1] = 1;
        }
        marks
    }
}

/// Proposes step rules that fight.
///
/// A bad sheet leaves the slices alone. Otherwise they are zero.
pub fn clash(sheet: &[u8], table: &mut [State], words: &mut [u32], scratch: &mut [State]) -> Plan {
    let sheet = match read(sheet) {
        Ok(sheet) => sheet,
        Err(fault) => return Plan { answer: fault.number, ..Plan::default() },
    };
    let mut trials = Trials { sheet, table, words, scratch, count: 0 };
    let found = search(&mut trials);
    trials.clear();
    let (answer, rules) = match found {
        Ok(choice) => (0, choice.into_iter().map(|rule| rule as u32).collect()),
        Err(answer) => (answer, Vec::new()),
    };
    Plan { answer, rules, trials: trials.count }
}

/// The choice: rules are dropped from the last to the first wherever the sheet
/// still cannot be kept; then each rule that stayed is left out once more.
fn search(trials: &mut Trials<'_>) -> Result<Vec<usize>, u32> {
    let all = trials.sheet.step_rules().count();
    let mut choice: Vec<usize> = (1..=all).collect();
    match trials.only(&choice) {
        Said::Crowded => return Err(CROWDED),
        Said::Kept => return Err(KEPT),
        Said::Cannot => {}
    }
    for rule in (1..=all).rev() {
        let less = without(&choice, rule);
        match trials.only(&less) {
            Said::Crowded => return Err(CROWDED),
            Said::Cannot => choice = less,
            Said::Kept => {}
        }
    }
    // A rule that had to stay at its turn could be left out among more rules than
    // are left now; among these there may be more states.
    for &rule in &choice {
        if trials.only(&without(&choice, rule)) == Said::Crowded {
            return Err(CROWDED);
        }
    }
    Ok(choice)
}
