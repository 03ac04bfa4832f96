//! The check and the planner of fighting rules: sheets made by hand with what
//! document 02's order 5 says of them, and random ones against every choice of
//! their rules judged naively.

#![deny(warnings)]

use plain::brute;
use plain::clash::{check_clash, clash, Plan, CROWDED, KEPT, NOT_ACCEPTED, RULES};
use plain::lent::Lent;
use plain::make::{damage, random_draft, Draft, Rng, DAMAGES};
use plain::named;
use plain::sheet::read_number;

/// What slices are filled with before a call.
const OLD: u32 = 0xDEAD_BEEF;

/// Slices with room for so many states, and one place more here and there.
fn lent(states: usize) -> Lent {
    Lent::all(OLD, [states, states + 1, 2 * states + 1, 0])
}

/// The check's answer, and whether it changed what was lent; changed slices are
/// zero.
fn checked(sheet: &[u8], rules: &[u32], states: usize) -> (u32, bool) {
    let mut slices = lent(states);
    let Lent { table, words, scratch, .. } = &mut slices;
    let answer = check_clash(sheet, rules, table, words, scratch);
    let unchanged = slices.is_all(OLD);
    assert!(unchanged || slices.is_all(0), "{slices:?}");
    (answer, !unchanged)
}

/// The planner's answer, choice and number of sheets tried; slices are zero but
/// on a bad sheet.
fn planned(sheet: &[u8], states: usize) -> (u32, Vec<u32>, usize) {
    let mut slices = lent(states);
    let Lent { table, words, scratch, .. } = &mut slices;
    let plan = clash(sheet, table, words, scratch);
    assert!(slices.is_all(if (1..=10).contains(&plan.answer) { OLD } else { 0 }), "{slices:?}");
    (plan.answer, plan.rules, plan.trials)
}

/// Letter 1 first. Rule 1: it holds always; 2: letter 2 stays; 3: letter 1 ends.
fn two_of_three() -> Vec<u8> {
    Draft::new(2).first([1]).step([], [1]).step([2], [2]).step([1], [-1]).bytes()
}

#[test]
fn two_rules_fight_and_the_one_between_is_idle() {
    let sheet = two_of_three();
    // The whole sheet, three dropped in turn, the choice less each of two.
    assert_eq!(planned(&sheet, 4), (0, vec![1, 3], 6));
    assert_eq!(checked(&sheet, &[1, 3], 4), (0, true));
    assert_eq!(checked(&sheet, &[1, 2, 3], 4), (NOT_ACCEPTED, true));
    for kept in [&[][..], &[1], &[2], &[3], &[1, 2], &[2, 3]] {
        assert_eq!(checked(&sheet, kept, 4), (NOT_ACCEPTED, true), "{kept:?}");
    }
}

#[test]
fn leaving_a_rule_out_can_need_more_room() {
    let sheet = two_of_three();
    // The first states are 1 and 3. With rule 3 alone, all four are reachable.
    assert_eq!(planned(&sheet, 3), (CROWDED, vec![], 4));
    assert_eq!(checked(&sheet, &[1, 3], 3), (CROWDED, true));
    assert_eq!(checked(&sheet, &[1, 3], 2), (CROWDED, true));
    // Rule 2 can be spared, and rules 1 and 2 can be kept; but without rule 1
    // there is no room, and that is told.
    assert_eq!(checked(&sheet, &[1, 2, 3], 3), (CROWDED, true));
    assert_eq!(checked(&sheet, &[1, 2], 3), (CROWDED, true));
    assert_eq!(planned(&sheet, 1), (CROWDED, vec![], 1));
}

#[test]
fn the_last_pass_is_not_idle() {
    // Letter 1 does not hold at first. Rule 1: it never holds; 2: nothing may follow.
    let sheet = Draft::new(1).first([-1]).step([], [-1]).step([], []).bytes();
    // Rule 2 stays, for rule 1 alone can be kept, with one state. Rule 1 is
    // dropped. Then, with none, there are two states.
    assert_eq!(planned(&sheet, 1), (CROWDED, vec![], 4));
    assert_eq!(checked(&sheet, &[2], 1), (CROWDED, true));
    assert_eq!(planned(&sheet, 2), (0, vec![2], 4));
    assert_eq!(checked(&sheet, &[2], 2), (0, true));
    // The other way round, dropping meets the two states.
    let sheet = Draft::new(1).first([-1]).step([], []).step([], [-1]).bytes();
    assert_eq!(planned(&sheet, 1), (CROWDED, vec![], 3));
    assert_eq!(planned(&sheet, 2), (0, vec![1], 4));
}

#[test]
fn of_two_clashes_the_one_before_is_found() {
    // Rules 1 and 4, or 2 and 3: dropping begins with the last.
    let sheet = Draft::new(2).step([], [1]).step([], [2]).step([], [-2]).step([], [-1]).bytes();
    assert_eq!(planned(&sheet, 4), (0, vec![2, 3], 7));
    assert_eq!(checked(&sheet, &[2, 3], 4), (0, true));
    assert_eq!(checked(&sheet, &[1, 4], 4), (0, true));
    assert_eq!(checked(&sheet, &[1, 2, 4], 4), (NOT_ACCEPTED, true));
    assert_eq!(checked(&sheet, &[1, 2], 4), (NOT_ACCEPTED, true));
}

#[test]
fn a_clash_without_step_rules_is_the_empty_choice() {
    // Exactly 2 of one letter: no state, so no room is needed.
    for draft in [Draft::new(1).exactly(2, [1]), Draft::new(1).exactly(2, [1]).step([1], [1])] {
        let (sheet, rules) = (draft.bytes(), draft.steps.len());
        assert_eq!(planned(&sheet, 0), (0, vec![], 1 + rules));
        assert_eq!(checked(&sheet, &[], 0), (0, true));
    }
    // A promise that a limit rules out, and a rule that takes states away.
    let sheet = Draft::new(2).exactly(0, [1]).promise(1).step([], [2]).first([2]).bytes();
    assert_eq!(planned(&sheet, 1), (CROWDED, vec![], 2));
    assert_eq!(planned(&sheet, 2), (0, vec![], 2));
    assert_eq!(checked(&sheet, &[1], 2), (NOT_ACCEPTED, true));
}

#[test]
fn a_sheet_that_can_be_kept() {
    let sheet = Draft::new(1).step([1], [1]).promise(1).bytes();
    assert_eq!(planned(&sheet, 2), (KEPT, vec![], 1));
    assert_eq!(planned(&sheet, 1), (CROWDED, vec![], 1));
    assert_eq!(checked(&sheet, &[1], 2), (NOT_ACCEPTED, true));
    assert_eq!(checked(&sheet, &[], 2), (NOT_ACCEPTED, true));
    assert_eq!(checked(&sheet, &[], 1), (CROWDED, true));
}

#[test]
fn bad_numbers_change_nothing() {
    let sheet = two_of_three();
    for numbers in [
        &[0][..],
        &[0, 1, 3],
        &[4],
        &[1, 3, 4],
        &[3, 1],
        &[1, 1],
        &[1, 3, 3],
        &[1, 2, 1],
        &[u32::MAX],
        &[1, 1 << 31],
    ] {
        // Also with no room: bad numbers come before 17.
        assert_eq!(checked(&sheet, numbers, 4), (NOT_ACCEPTED, false), "{numbers:?}");
        assert_eq!(checked(&sheet, numbers, 1), (NOT_ACCEPTED, false), "{numbers:?}");
    }
    let none = Draft::new(1).bytes();
    assert_eq!(checked(&none, &[1], 2), (NOT_ACCEPTED, false));
}

#[test]
fn bad_sheets_come_first() {
    for (number, bad) in (1..).zip(named::bad()) {
        assert_eq!(planned(&bad.named.sheet, 4), (number, vec![], 0));
        for numbers in [&[][..], &[1], &[2, 1], &[0]] {
            assert_eq!(checked(&bad.named.sheet, numbers, 4), (number, false));
        }
    }
}

#[test]
fn all_255_rules_have_their_marks() {
    // Nothing may follow, asked by the first and by the last of 255 rules.
    for (place, trials) in [(0, 257), (RULES - 1, 257)] {
        let mut draft = Draft::new(1);
        for rule in 0..RULES {
            draft.step([], if rule == place { vec![] } else { vec![-1, 1] });
        }
        let sheet = draft.bytes();
        let mut slices = lent(2);
        let Lent { table, words, scratch, .. } = &mut slices;
        let plan = clash(&sheet, table, words, scratch);
        assert_eq!(plan, Plan { answer: 0, rules: vec![place as u32 + 1], trials });
        let mut marks = [0; RULES];
        marks[place] = 1;
        assert_eq!(plan.marks(), marks);
        assert_eq!(checked(&sheet, &[place as u32 + 1], 2), (0, true));
    }
}

/// Of the sheets with a name, those that cannot be kept: their choices.
#[test]
fn the_named_sheets() {
    let sheets: Vec<_> = named::all().into_iter().collect();
    let chosen = |file: &str| {
        let sheet = &sheets.iter().find(|sheet| sheet.file == file).expect("a named sheet").sheet;
        let (answer, rules, _) = planned(sheet, 16_384);
        (answer, rules)
    };
    assert_eq!(chosen("w01"), (KEPT, vec![]));
    assert_eq!(chosen("w04"), (0, vec![1, 2]));
    assert_eq!(chosen("w05"), (0, vec![1]));
    assert_eq!(chosen("w06"), (0, vec![]));
    assert_eq!(chosen("w15"), (0, vec![1, 2, 3]));
    assert_eq!(chosen("clock"), (0, vec![1, 2, 3]));
    assert_eq!(chosen("clock-mended"), (KEPT, vec![]));
}

/// The answers, by the naive judge, to a draft with every choice of its step
/// rules; a choice is a number, its lowest bit for rule 1.
fn every_choice(draft: &Draft, states: usize) -> Vec<u32> {
    let Lent { table, words, scratch, .. } = lent(states);
    let answer = |choice: usize| {
        let mut only = draft.clone();
        let mut rule = 0;
        only.steps.retain(|_| {
            rule += 1;
            choice >> (rule - 1) & 1 == 1
        });
        brute::judge(&only.bytes(), &table, &words, &scratch, &[])
            .expect("few letters")
            .answer
            .answer
    };
    (0..1 << draft.steps.len()).map(answer).collect()
}

/// The numbers of a choice's rules.
fn numbers(choice: usize) -> Vec<u32> {
    (1..=32).filter(|rule| choice >> (rule - 1) & 1 == 1).collect()
}

/// A choice's bits, each by itself.
fn bits(choice: usize) -> impl Iterator<Item = usize> {
    (0..32).map(|place| 1 << place).filter(move |bit| choice & bit != 0)
}

/// What the check should say.
fn weighed(answers: &[u32], choice: usize) -> u32 {
    let less: Vec<u32> = bits(choice).map(|bit| answers[choice - bit]).collect();
    match answers[choice] {
        _ if answers[choice] == 11 || less.contains(&11) => CROWDED,
        13 if less.iter().all(|&answer| answer == 12) => 0,
        _ => NOT_ACCEPTED,
    }
}

/// What the planner should say: the answer and the choice.
fn plan(answers: &[u32]) -> (u32, usize) {
    let mut choice = answers.len() - 1;
    match answers[choice] {
        11 => return (CROWDED, 0),
        12 => return (KEPT, 0),
        _ => {}
    }
    let all: Vec<usize> = bits(choice).collect();
    for &bit in all.iter().rev() {
        match answers[choice - bit] {
            11 => return (CROWDED, 0),
            13 => choice -= bit,
            _ => {}
        }
    }
    if bits(choice).any(|bit| answers[choice - bit] == 11) {
        return (CROWDED, 0);
    }
    (0, choice)
}

#[test]
fn every_choice_of_random_sheets() {
    let rng = &mut Rng::new(17);
    let (mut checks, mut plans) = ([0; 18], [0; 18]);
    let mut rounds = 0;
    while rounds < 600 {
        let letters = rng.within(1, 4) as u8;
        let mut draft = random_draft(rng, letters);
        draft.steps.truncate(rng.within(1, 6));
        let states = rng.within(rng.clone().below(2) << letters, 1 << letters);
        let answers = every_choice(&draft, states);
        // Most that can be kept are passed over.
        if answers[answers.len() - 1] == 12 && !rng.once_in(4) {
            continue;
        }
        rounds += 1;
        let sheet = draft.bytes();
        for choice in 0..answers.len() {
            let (answer, _) = checked(&sheet, &numbers(choice), states);
            assert_eq!(answer, weighed(&answers, choice), "{draft:?}, {choice:b}, {states} states");
            checks[answer as usize] += 1;
        }
        let (answer, choice) = plan(&answers);
        let (found, rules, _) = planned(&sheet, states);
        assert_eq!((found, &rules), (answer, &numbers(choice)), "{draft:?}, {states} states");
        plans[answer as usize] += 1;
        if answer == 0 {
            assert_eq!(checked(&sheet, &rules, states).0, 0);
        }
    }
    assert!([0, 14, 17].iter().all(|&answer| checks[answer] > 20), "{checks:?}");
    assert!([0, 12, 17].iter().all(|&answer| plans[answer] > 20), "{plans:?}");
}

#[test]
fn damaged_sheets_change_nothing() {
    let rng = &mut Rng::new(18);
    for way in 0..DAMAGES {
        let sheet = random_draft(rng, 3).bytes();
        let bad = damage(rng, &sheet, way);
        let number = read_number(&bad);
        if number > 0 {
            assert_eq!(planned(&bad, 8), (number, vec![], 0));
            assert_eq!(checked(&bad, &[1], 8), (number, false));
        }
    }
}
