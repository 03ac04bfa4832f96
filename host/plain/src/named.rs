//! Sheets that have a name on a page: the workshop wall's, the guide's, and one
//! bad sheet for each of the ten faults.
//!
//! The folder `examples` has each of them as a file; `tests/examples.rs` holds
//! the files and the table in `examples/README.md` to what stands here.

use crate::judge::{judge, Answer};
use crate::make::{w15, with_length, Draft};
use crate::State;

/// A sheet with a name.
#[derive(Clone, Debug)]
pub struct Named {
    /// The file's name in the folder `examples`, without `.sheet`.
    pub file: &'static str,
    /// What it says, in a line.
    pub what: &'static str,
    /// The sheet.
    pub sheet: Vec<u8>,
}

impl Named {
    fn new(file: &'static str, what: &'static str, draft: &Draft) -> Named {
        Named { file, what, sheet: draft.bytes() }
    }
}

/// W1 to W16. The wall gives no letters for W7 to W12: they have two.
pub fn wall() -> Vec<Named> {
    let letters = Draft::new;
    let w2 = letters(1).promise(1).clone();
    vec![
        Named::new("w01", "one letter, nothing else", &letters(1)),
        Named::new("w02", "promise 1; the limit K x p is reached", &w2),
        Named::new("w03", "promises 1 and -1", letters(1).promise(1).promise(-1)),
        Named::new("w04", "1 falls and stays down; promise 1", &w4()),
        Named::new("w05", "a step rule with both sides empty", letters(1).step([], [])),
        Named::new("w06", "exactly 2 of {1}", letters(1).exactly(2, [1])),
        Named::new("w07", "exactly 1 of {1, 2}", letters(2).exactly(1, [1, 2])),
        Named::new("w08", "at most 1 of {1, 2}", letters(2).at_most(1, [1, 2])),
        Named::new("w09", "at most 1 of {-2, -1}", letters(2).at_most(1, [-2, -1])),
        Named::new("w10", "exactly 1 of {-1, 1}", letters(2).exactly(1, [-1, 1])),
        Named::new("w11", "exactly 0 of {-1, 1}", letters(2).exactly(0, [-1, 1])),
        Named::new("w12", "exactly 0 of the empty list", letters(2).exactly(0, [])),
        Named::new("w13", "exactly 1 of four; 1 or 2 first", &w13()),
        Named::new("w14", "exactly 1 of {1, 2}, 2 of {2, 3, 4}; 1 or 2 first", &w14()),
        Named::new("w15", "the robots", &w15()),
        Named::new("w16", "W2 again; the wall lends it less room", &w2),
    ]
}

fn w4() -> Draft {
    Draft::new(1).first([1]).step([1], [-1]).step([-1], [-1]).promise(1).clone()
}

fn w13() -> Draft {
    Draft::new(4).exactly(1, [1, 2, 3, 4]).first([1, 2]).clone()
}

fn w14() -> Draft {
    Draft::new(4).exactly(1, [1, 2]).exactly(2, [2, 3, 4]).first([1, 2]).clone()
}

// The four letters of the guide.
const MOTOR: i8 = 1;
const FILE: i8 = 2;
const SUMMER: i8 = 3;
const REPEATED: i8 = 4;

/// The guide's sheets: the clock that goes back and its mending, then one for
/// each of the three mistakes that students make, and the clock of a whole year.
pub fn guide() -> Vec<Named> {
    vec![
        Named::new("clock", "the clock goes back", &clock()),
        Named::new("clock-mended", "the same, mended", &clock_mended()),
        Named::new("mistake-1", "ten good moves, and no eleventh", &ten_moves()),
        Named::new("mistake-2", "the file's closing is put off for ever", &put_off()),
        Named::new("mistake-3", "at most two, and two must hold", &two_at_once(2)),
        Named::new("mistake-3-misread", "the same with fewer than two", &two_at_once(1)),
        Named::new("clock-year", "a year, minute by minute", &clock_year()),
    ]
}

/// What each clock sheet begins with: the motor always runs, the summer hour
/// and the repeated hour never hold together, and at first the file is open in
/// the summer hour.
fn hours() -> Draft {
    let mut draft = Draft::new(4);
    draft.exactly(1, [MOTOR]).at_most(1, [SUMMER, REPEATED]).first([FILE]).first([SUMMER]);
    draft
}

/// The repeated hour asks for the file to be open and to be closed.
fn clock() -> Draft {
    let mut draft = hours();
    draft.step([SUMMER], [SUMMER, REPEATED]);
    draft.step([REPEATED], [FILE]).step([REPEATED], [-FILE]);
    draft.promise(-SUMMER).clone()
}

/// After the repeated hour the file is open, and neither hour holds.
fn clock_mended() -> Draft {
    let mut draft = hours();
    draft.step([SUMMER], [SUMMER, REPEATED]).step([REPEATED], [FILE]);
    draft.step([REPEATED], [-SUMMER]).step([REPEATED], [-REPEATED]);
    draft.promise(-SUMMER).clone()
}

/// A year, a moment for each minute. It begins in winter; summer ends only with
/// the repeated hour, which may last, and winter comes then. The first hour's
/// file is closed before the repeated hour begins, and a new one is open in it.
fn clock_year() -> Draft {
    let mut draft = Draft::new(4);
    draft.exactly(1, [MOTOR]).at_most(1, [SUMMER, REPEATED]).first([-SUMMER]).first([-REPEATED]);
    draft.step([-SUMMER, -REPEATED], [-REPEATED]).step([SUMMER], [SUMMER, REPEATED]);
    draft.step([REPEATED], [-SUMMER]).step([FILE, SUMMER], [-REPEATED]);
    draft.step([REPEATED], [FILE, -REPEATED]).promise(FILE).clone()
}

/// The letters count the moves, letter 1 worth 1 and letter 4 worth 8. After
/// ten moves letters 2 and 4 hold, for the first time, and nothing may follow.
fn ten_moves() -> Draft {
    let mut draft = Draft::new(4);
    for letter in 1..=4 {
        draft.first([-letter]);
    }
    // Letter 1 turns over at each move, 2 when 1 holds, 3 when 1 and 2 hold.
    draft.step([-1], [1]).step([1], [-1]);
    draft.step([1, -2], [2]).step([1, 2], [-2]).step([-1, 2], [2]).step([-1, -2], [-2]);
    draft.step([1, 2, -3], [3]).step([1, 2, 3], [-3]);
    for lower in [-1, -2] {
        draft.step([lower, 3], [3]).step([lower, -3], [-3]);
    }
    // Letter 4 comes with the eighth move and stays.
    draft.step([1, 2, 3], [4]).step([4], [4]);
    for lower in [-1, -2, -3] {
        draft.step([lower, -4], [-4]);
    }
    draft.step([2, 4], []);
    draft
}

/// Sometime the file is closed; but in either hour it stays open, and the
/// repeated hour leads back to the summer hour.
fn put_off() -> Draft {
    let mut draft = hours();
    draft.step([SUMMER], [SUMMER, REPEATED]).step([REPEATED], [SUMMER]);
    draft.step([FILE, SUMMER], [FILE]).step([FILE, REPEATED], [FILE]);
    draft.promise(-FILE).clone()
}

/// At most `most` of the four letters; at first the motor is on and the file
/// closed, then the motor stays on and the file is open.
fn two_at_once(most: u8) -> Draft {
    let mut draft = Draft::new(4);
    draft.at_most(most, [MOTOR, FILE, SUMMER, REPEATED]).first([MOTOR]).first([-FILE]);
    draft.step([MOTOR], [MOTOR]).step([MOTOR], [FILE]).promise(FILE);
    draft
}

/// All of them.
pub fn all() -> Vec<Named> {
    let mut sheets = wall();
    sheets.extend(guide());
    sheets
}

/// A bad sheet with a name, and its fault.
#[derive(Clone, Debug)]
pub struct Bad {
    /// The sheet.
    pub named: Named,
    /// The fault's number.
    pub number: u32,
    /// The fault's place.
    pub place: u32,
}

/// The clock's sheet with each of the ten faults. Its records begin at bytes 8,
/// 12 (limits), 17, 19 (first rules), 21, 26, 30 (step rules) and 34 (promise).
pub fn bad() -> Vec<Bad> {
    let good = clock().bytes();
    let with = |changes: &[(usize, u8)]| {
        let mut sheet = good.clone();
        for &(at, value) in changes {
            sheet[at] = value;
        }
        sheet
    };
    let bad = |file, what, sheet, place: u32| (Named { file, what, sheet }, place);
    let sheets = [
        bad("bad-01", "cut off in the header", with_length(good[..7].to_vec()), 0),
        bad("bad-02", "version 2", with(&[(0, 2)]), 0),
        bad("bad-03", "a byte lost, and the old length stated", good[..35].to_vec(), 1),
        bad("bad-04", "25 letters", with(&[(3, 25)]), 3),
        bad("bad-05", "17 promises", with(&[(7, 17)]), 7),
        bad("bad-06", "two promises stated, and only one there", with(&[(7, 2)]), 36),
        bad("bad-07", "step 2 with a left side longer than its record", with(&[(27, 3)]), 26),
        bad("bad-08", "letter 5 on the right side of step 1", with(&[(25, 5)]), 25),
        bad("bad-09", "limit 2 with 4 before 3", with(&[(15, 4), (16, 3)]), 16),
        bad("bad-10", "a promise there, and none stated", with(&[(7, 0)]), 34),
    ];
    let numbered = (1..).zip(sheets);
    numbered.map(|(number, (named, place))| Bad { named, number, place }).collect()
}

/// The judge's numbers and papers, lent what the small program lends: 4,096
/// numbers each for table, words and run, and 8,192 for scratch.
#[derive(Clone, Debug)]
pub struct Judged {
    /// The five numbers.
    pub answer: Answer,
    /// Answer 0: the sample run. Answer 13: the strike list's states.
    pub states: Vec<State>,
    /// Answer 13: the strike list's words.
    pub words: Vec<u32>,
}

impl Judged {
    /// Judges a sheet.
    pub fn of(sheet: &[u8]) -> Judged {
        let (mut table, mut words) = (vec![7; 4096], vec![7; 4096]);
        let (mut scratch, mut run) = (vec![7; 8192], vec![7; 4096]);
        let answer = judge(sheet, &mut table, &mut words, &mut scratch, &mut run);
        let (states, size) = match answer.answer {
            0 => (run, answer.b),
            _ => (table, answer.count),
        };
        let listed = if answer.answer == 13 { size as usize } else { 0 };
        Judged { answer, states: states[..size as usize].to_vec(), words: words[..listed].to_vec() }
    }

    /// What the small program should print: it omits the place.
    pub fn line(&self) -> String {
        let Answer { answer, count, a, b, .. } = self.answer;
        format!("{answer} {count} {a} {b}")
    }
}
