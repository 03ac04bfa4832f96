//! The proved library's calls as the verbs want them: with all the room that there can be, and with what was lent cut to what was answered.
//!
//! The calls themselves are declared in `host/calls`.

use naxxurbi_calls as calls;

pub use calls::{read, read_place, Numbers, STATES as MOST_STATES};

use calls::{state_bytes, word_bytes, State, ACCOUNT, CLASS_NUMBERS, CLASS_SHEETS, MOMENTS, RULES};

/// How many tallies of kept moves, and of broken moves, an account has.
const TALLIES: usize = RULES;

/// The account of a log so far, as the proved audit keeps it.
#[derive(Clone, Debug)]
pub struct Account([u32; ACCOUNT]);

impl Account {
    /// The account of nothing yet.
    pub fn new() -> Account {
        Account([0; ACCOUNT])
    }

    /// How many moments there were.
    pub fn count(&self) -> u32 {
        self.0[0]
    }

    /// The last state.
    pub fn last(&self) -> State {
        State::from(self.0[1])
    }

    /// What the first breach was: 0 none, 1 an unlawful state, 2 a first rule, 3 a step rule.
    pub fn what(&self) -> u32 {
        self.0[2]
    }

    /// The moment of the first breach.
    pub fn moment(&self) -> u32 {
        self.0[3]
    }

    /// The step rule that it broke, counted from 1, or 0.
    pub fn rule(&self) -> u32 {
        self.0[4]
    }

    /// Forgets the breach, so that the account can tell the next one. Any numbers can be handed in, so these, too.
    pub fn pardon(&mut self) {
        self.0[2..5].fill(0);
    }

    /// How many moves kept each step rule.
    pub fn kept(&self) -> &[u32] {
        &self.0[5..5 + TALLIES]
    }

    /// How many moves broke each step rule.
    pub fn broken(&self) -> &[u32] {
        &self.0[5 + TALLIES..]
    }
}

impl Default for Account {
    fn default() -> Account {
        Account::new()
    }
}

/// What the judge answered and left in the lent slices.
#[derive(Clone, Debug)]
pub struct Judged {
    /// The five numbers.
    pub numbers: Numbers,
    /// Livable states (answer 0) or struck states (answer 13): `count` of them.
    pub table: Vec<State>,
    /// The strike list's words (answer 13), one for each struck state.
    pub words: Vec<u32>,
    /// The sample run (answer 0).
    pub run: Vec<State>,
}

/// Checks a run that goes back to moment `a`: 0 if it is accepted, 14 if not, 1 to 10 for a bad sheet.
pub fn check_run(sheet: &[u8], states: &[State], a: u32) -> u32 {
    calls::check_run(sheet, &state_bytes(states), a)
}

/// Checks a strike list: 0 if it is accepted, 14 if not, 1 to 10 for a bad sheet.
pub fn check_strikes(sheet: &[u8], states: &[State], words: &[u32]) -> u32 {
    calls::check_strikes(sheet, &state_bytes(states), &word_bytes(words))
}

/// Carries an account on by some states: 0, or 15 where it is past 1,000,000 moments then, or 1 to 10 for a bad sheet.
pub fn audit(sheet: &[u8], account: &mut Account, states: &[State]) -> u32 {
    calls::audit(sheet, &mut account.0, states)
}

/// What is lent to the judge beside a run: all the room that there can be.
pub struct Room {
    table: Vec<State>,
    words: Vec<u32>,
    scratch: Vec<State>,
}

impl Room {
    /// All the room.
    pub fn new() -> Room {
        Room { table: vec![0; MOST_STATES], words: vec![0; MOST_STATES], scratch: vec![0; 2 * MOST_STATES] }
    }

    /// The judge's answer for a sheet, with no room for a run: 12 if it can be kept, 13 if it cannot, 11 if there is no room to say.
    pub fn answer(&mut self, sheet: &[u8]) -> u32 {
        calls::judge(sheet, &mut self.table, &mut self.words, &mut self.scratch, &mut []).answer
    }

    /// Checks whether step rules, counted from 1, fight: 0 if they do, 14 if not, 17 without room, 1 to 10 for a bad sheet.
    pub fn check_clash(&mut self, sheet: &[u8], rules: &[u32]) -> u32 {
        calls::check_clash(sheet, rules, &mut self.table, &mut self.words, &mut self.scratch)
    }

    /// The proved planner's answer, and the step rules that it marks, counted from 1.
    pub fn clash(&mut self, sheet: &[u8]) -> (u32, Vec<u32>) {
        let (answer, marks) = calls::clash(sheet, &mut self.table, &mut self.words, &mut self.scratch);
        (answer, (1..).zip(marks).filter(|&(_, mark)| mark != 0).map(|(rule, _)| rule).collect())
    }
}

impl Default for Room {
    fn default() -> Room {
        Room::new()
    }
}

/// Judges a sheet with all the room that there can be. A run that needs more room than was lent is asked for again.
pub fn judge(sheet: &[u8]) -> Judged {
    let Room { mut table, mut words, mut scratch } = Room::new();
    let mut run = vec![0; MOST_STATES];
    let mut numbers = calls::judge(sheet, &mut table, &mut words, &mut scratch, &mut run);
    if numbers.answer == 12 {
        run = vec![0; numbers.b as usize];
        numbers = calls::judge(sheet, &mut table, &mut words, &mut scratch, &mut run);
    }
    let (count, b) = (numbers.count as usize, numbers.b as usize);
    table.truncate(count);
    words.truncate(if numbers.answer == 13 { count } else { 0 });
    run.truncate(b);
    Judged { numbers, table, words, run }
}

/// Judges many sheets, in calls of up to 32, with all the room that there can be: answer, count, a and b of each.
pub fn judge_class(sheets: &[&[u8]]) -> Vec<[u32; CLASS_NUMBERS]> {
    let Room { mut table, mut words, mut scratch } = Room::new();
    let mut run = vec![0; MOMENTS];
    let mut judged = Vec::new();
    for class in sheets.chunks(CLASS_SHEETS) {
        let mut numbers = [u32::MAX; CLASS_NUMBERS * CLASS_SHEETS];
        let answer = calls::judge_class(&class.concat(), &ends(class), &mut table, &mut words, &mut scratch, &mut run, &mut numbers);
        assert_eq!(answer, 0, "the ends fit the sheets, which are at most 32");
        judged.extend(numbers.chunks_exact(CLASS_NUMBERS).take(class.len()).map(|four| [four[0], four[1], four[2], four[3]]));
    }
    judged
}

/// Where each sheet ends when they are joined.
fn ends(class: &[&[u8]]) -> Vec<u32> {
    let ends = class.iter().scan(0, |end, sheet| {
        *end += sheet.len() as u32;
        Some(*end)
    });
    ends.collect()
}
