//! The examples from the workshop wall, W1 to W16, with every number that
//! document 01 gives; and the checkers on the wall's papers.

#![deny(warnings)]

use plain::check::{check_run, check_run_bytes, check_strikes, check_strikes_bytes};
use plain::judge::{judge, Answer};
use plain::lent::Lent;
use plain::list::{first_states, lawful_states, next_states};
use plain::make::{w15, Draft};
use plain::rules::Rules;
use plain::sheet::{read, read_number, Fault};
use plain::State;

/// What slices are filled with beforehand.
const OLD: u32 = 0xDEAD_BEEF;
const OLD_STATE: State = OLD as State;

/// The judge's numbers and the slices afterwards.
#[derive(Debug, PartialEq, Eq)]
struct Judged {
    answer: Answer,
    table: Vec<State>,
    words: Vec<u32>,
    scratch: Vec<State>,
    run: Vec<State>,
}

fn judge_with(sheet: &[u8], lengths: [usize; 4]) -> Judged {
    let Lent { mut table, mut words, mut scratch, mut run } = Lent::all(OLD, lengths);
    let answer = judge(sheet, &mut table, &mut words, &mut scratch, &mut run);
    Judged { answer, table, words, scratch, run }
}

/// The room that most examples are judged with.
const ROOM: [usize; 4] = [40, 50, 90, 30];

fn padded<T: Clone>(front: &[T], rest: T, length: usize) -> Vec<T> {
    let mut slice = front.to_vec();
    slice.resize(length, rest);
    slice
}

fn can(sheet: &[u8], livable: &[State], run: &[State], a: u32) {
    let answer =
        Answer { answer: 0, count: livable.len() as u32, a, b: run.len() as u32, place: 0 };
    let expected = Judged {
        answer,
        table: padded(livable, 0, ROOM[0]),
        words: vec![0; ROOM[1]],
        scratch: vec![0; ROOM[2]],
        run: padded(run, OLD_STATE, ROOM[3]),
    };
    assert_eq!(judge_with(sheet, ROOM), expected);
    assert_eq!(check_run(sheet, run, a), 0);
    assert_eq!(check_run_bytes(sheet, &state_bytes(run), a), 0);
}

fn cannot(sheet: &[u8], states: &[State], words: &[u32]) {
    let answer = Answer { answer: 13, count: states.len() as u32, a: 0, b: 0, place: 0 };
    let expected = Judged {
        answer,
        table: padded(states, 0, ROOM[0]),
        words: padded(words, 0, ROOM[1]),
        scratch: vec![0; ROOM[2]],
        run: vec![OLD_STATE; ROOM[3]],
    };
    assert_eq!(judge_with(sheet, ROOM), expected);
    assert_eq!(check_strikes(sheet, states, words), 0);
    assert_eq!(check_strikes_bytes(sheet, &state_bytes(states), &word_bytes(words)), 0);
}

fn state_bytes(states: &[State]) -> Vec<u8> {
    states.iter().flat_map(|state| state.to_be_bytes()).collect()
}

fn word_bytes(words: &[u32]) -> Vec<u8> {
    words.iter().flat_map(|word| word.to_be_bytes()).collect()
}

fn rules(draft: &Draft) -> Rules {
    Rules::new(&read(&draft.bytes()).expect("a good sheet"))
}

const W1: [u8; 8] = [1, 0, 8, 1, 0, 0, 0, 0];
const W4: [u8; 20] = [1, 0, 0x14, 1, 0, 1, 2, 1, 1, 1, 3, 1, 1, 0xFF, 3, 1, 0xFF, 0xFF, 1, 1];

fn w2() -> Vec<u8> {
    Draft::new(1).promise(1).bytes()
}

fn w3() -> Vec<u8> {
    Draft::new(1).promise(1).promise(-1).bytes()
}

#[test]
fn w1_to_w3_can_be_kept() {
    assert_eq!(Draft::new(1).bytes(), W1);
    can(&W1, &[0, 1], &[0], 0);
    can(&w2(), &[0, 1], &[0, 1], 1);
    can(&w3(), &[0, 1], &[0, 1, 0], 1);
}

#[test]
fn w4_to_w6_cannot_be_kept() {
    let drawn = Draft::new(1).first([1]).step([1], [-1]).step([-1], [-1]).promise(1).bytes();
    assert_eq!(drawn, W4);
    cannot(&W4, &[0, 1], &[33, 64]);
    cannot(&Draft::new(1).step([], []).bytes(), &[0, 1], &[32, 32]);
    cannot(&Draft::new(1).exactly(2, [1]).bytes(), &[], &[]);
}

#[test]
fn w7_to_w12_lawful_states() {
    let lawful = |draft: &Draft| lawful_states(&rules(draft));
    assert_eq!(lawful(Draft::new(2).exactly(1, [1, 2])), [1, 2]);
    assert_eq!(lawful(Draft::new(2).at_most(1, [1, 2])), [0, 1, 2]);
    assert_eq!(lawful(Draft::new(2).at_most(1, [-2, -1])), [1, 2, 3]);
    for letters in [1, 2, 5] {
        let all: Vec<State> = (0..1 << letters).collect();
        assert_eq!(lawful(Draft::new(letters).exactly(1, [-1, 1])), all);
        assert_eq!(lawful(Draft::new(letters).exactly(0, [-1, 1])), []);
        assert_eq!(lawful(Draft::new(letters).exactly(0, [])), all);
    }
}

#[test]
fn w13_and_w14_first_states() {
    let first = |draft: &Draft| first_states(&rules(draft));
    assert_eq!(first(Draft::new(4).exactly(1, [1, 2, 3, 4]).first([1, 2])), [1, 2]);
    let mut w14 = Draft::new(4);
    w14.exactly(1, [1, 2]).exactly(2, [2, 3, 4]).first([1, 2]);
    assert_eq!(first(&w14), [6, 10, 13]);
}

#[test]
fn w15_the_robots() {
    let sheet = w15().bytes();
    let states = [775, 8711, 16647, 24583];
    cannot(&sheet, &states, &[32; 4]);
    let rules = rules(&w15());
    assert_eq!(first_states(&rules), states);
    for state in states {
        assert_eq!(next_states(&rules, state), []);
    }
    // With exactly as much room as there are states, and one less.
    assert_eq!(judge_with(&sheet, [4, 4, 8, 0]).answer.answer, 13);
    assert_eq!(judge_with(&sheet, [4, 4, 9, 0]).answer.answer, 13);
    assert_eq!(judge_with(&sheet, [3, 4, 8, 0]).answer.answer, 11);
    assert_eq!(judge_with(&sheet, [4, 3, 8, 0]).answer.answer, 11);
    assert_eq!(judge_with(&sheet, [4, 4, 7, 0]).answer.answer, 11);
}

#[test]
fn w16_too_little_room() {
    for lengths in [[1, 9, 9, 5], [9, 1, 9, 5], [9, 9, 2, 5], [9, 9, 3, 5], [0, 0, 0, 0]] {
        let [table, words, scratch, run] = lengths;
        let expected = Judged {
            answer: Answer { answer: 11, count: 0, a: 0, b: 0, place: 0 },
            table: vec![0; table],
            words: vec![0; words],
            scratch: vec![0; scratch],
            run: vec![OLD_STATE; run],
        };
        assert_eq!(judge_with(&w2(), lengths), expected);
    }
    for run in [0, 1] {
        let expected = Judged {
            answer: Answer { answer: 12, count: 0, a: 0, b: 2, place: 0 },
            table: vec![0; 2],
            words: vec![0; 2],
            scratch: vec![0; 4],
            run: vec![OLD_STATE; run],
        };
        assert_eq!(judge_with(&w2(), [2, 2, 4, run]), expected);
    }
    let expected = Judged {
        answer: Answer { answer: 0, count: 2, a: 1, b: 2, place: 0 },
        table: vec![0, 1],
        words: vec![0; 2],
        scratch: vec![0; 4],
        run: vec![0, 1],
    };
    assert_eq!(judge_with(&w2(), [2, 2, 4, 2]), expected);
    // No reachable states need no room.
    let w6 = Draft::new(1).exactly(2, [1]).bytes();
    assert_eq!(
        judge_with(&w6, [0; 4]).answer,
        Answer { answer: 13, count: 0, a: 0, b: 0, place: 0 }
    );
    // Runs of no states.
    for sheet in [&W1[..], &w2(), &w3(), &W4, &w6] {
        assert_eq!(check_run(sheet, &[], 0), 14);
        assert_eq!(check_run(sheet, &[], u32::MAX), 14);
        assert_eq!(check_run_bytes(sheet, &[], 0), 14);
    }
}

#[test]
fn a_bad_sheet_changes_nothing() {
    let mut bad = W4;
    bad[0] = 2;
    let expected = Judged {
        answer: Answer { answer: 2, count: 0, a: 0, b: 0, place: 0 },
        table: vec![OLD_STATE; 3],
        words: vec![OLD; 2],
        scratch: vec![OLD_STATE; 1],
        run: vec![OLD_STATE; 4],
    };
    assert_eq!(judge_with(&bad, [3, 2, 1, 4]), expected);
    // The sheet's faults come before the paper's.
    assert_eq!(check_run(&bad, &[], 0), 2);
    assert_eq!(check_strikes(&bad, &[0], &[]), 2);
    assert_eq!(check_run_bytes(&bad, &[0], 0), 2);
    assert_eq!(check_strikes_bytes(&bad, &[0], &[]), 2);
}

#[test]
fn damaged_runs_are_not_accepted() {
    // W2: the promise must be kept from a on, not just somewhere.
    assert_eq!(check_run(&w2(), &[1, 0], 1), 14);
    assert_eq!(check_run(&w2(), &[1, 0], 0), 0);
    assert_eq!(check_run(&w2(), &[0, 1], 2), 14);
    assert_eq!(check_run(&w2(), &[0, 1], u32::MAX), 14);
    assert_eq!(check_run(&w2(), &[0, 2], 0), 14);
    assert_eq!(check_run(&w2(), &[2, 1], 1), 14);
    assert_eq!(check_run(&w2(), &[0], 0), 14);
    assert_eq!(check_run(&w2(), &[1], 0), 0);
    // W4: state 0 goes round for ever and the promise is broken.
    for (states, a) in [(&[1, 0][..], 1), (&[1, 0], 0), (&[1], 0), (&[0], 0), (&[1, 0, 0], 1)] {
        assert_eq!(check_run(&W4, states, a), 14);
    }
    // Without the promise the same run obeys.
    let kept = Draft::new(1).first([1]).step([1], [-1]).step([-1], [-1]).bytes();
    assert_eq!(check_run(&kept, &[1, 0], 1), 0);
    assert_eq!(check_run(&kept, &[0], 0), 14);
    assert_eq!(check_run(&kept, &[1, 0], 0), 14);
    assert_eq!(check_run(&kept, &[1, 1], 1), 14);
    // Bytes that do not come in fours; the order of bytes.
    assert_eq!(check_run_bytes(&w2(), &[0, 0, 0, 0, 0, 0, 0, 1], 1), 0);
    assert_eq!(check_run_bytes(&w2(), &[0, 0, 0, 0, 1, 0, 0, 0], 1), 14);
    for length in [1, 2, 3, 5, 6, 7] {
        assert_eq!(check_run_bytes(&w2(), &[0, 0, 0, 1, 0, 0, 0, 1][..length], 0), 14);
    }
    assert_eq!(check_run_bytes(&w2(), &[0, 0, 0, 1], 0), 0);
}

#[test]
fn damaged_strike_lists_are_not_accepted() {
    let w5 = Draft::new(1).step([], []).bytes();
    assert_eq!(check_strikes(&W4, &[0, 1], &[33, 64]), 0);
    // Words need not start at 32, and states that cannot be reached do no harm.
    assert_eq!(check_strikes(&W4, &[0, 1], &[1, 32]), 0);
    assert_eq!(check_strikes(&W4, &[0, 1], &[u32::MAX - 30, u32::MAX - 30]), 14);
    assert_eq!(check_strikes(&w5, &[0, 1], &[0, 0]), 0);
    assert_eq!(check_strikes(&w5, &[1, 0], &[0, 0]), 0);
    // A state may be listed twice, if each listing is right.
    assert_eq!(check_strikes(&W4, &[0, 0, 1], &[1, 33, 64]), 0);
    assert_eq!(check_strikes(&W4, &[0, 0, 1, 1], &[1, 33, 64, 96]), 0);
    assert_eq!(check_strikes(&W4, &[0, 0, 1], &[1, 32, 64]), 0);
    assert_eq!(check_strikes(&W4, &[0, 0, 1], &[0, 33, 64]), 14);
    // Lengths, falling words, reasons above p, unlawful states.
    assert_eq!(check_strikes(&W4, &[0, 1], &[33]), 14);
    assert_eq!(check_strikes(&W4, &[0], &[33, 64]), 14);
    assert_eq!(check_strikes(&W4, &[1, 0], &[64, 33]), 14);
    assert_eq!(check_strikes(&W4, &[0, 1], &[34, 64]), 14);
    assert_eq!(check_strikes(&W4, &[0, 1, 2], &[33, 64, 64]), 14);
    // A first state left out, and only it asked for.
    assert_eq!(check_strikes(&W4, &[0], &[33]), 14);
    assert_eq!(check_strikes(&W4, &[1], &[64]), 14);
    assert_eq!(check_strikes(&W4, &[], &[]), 14);
    assert_eq!(check_strikes(&w5, &[0], &[32]), 14);
    // Reason 0 needs smaller words; a promise's needs its literal false.
    assert_eq!(check_strikes(&W4, &[0, 1], &[32, 64]), 14);
    assert_eq!(check_strikes(&W4, &[0, 1], &[33, 65]), 14);
    assert_eq!(check_strikes(&W4, &[1, 0], &[32, 33]), 14);
    // What can be kept has no list.
    assert_eq!(check_strikes(&w2(), &[0, 1], &[33, 64]), 14);
    assert_eq!(check_strikes(&W1, &[0, 1], &[32, 32]), 14);
    // No first states: the empty list will do.
    let w6 = Draft::new(1).exactly(2, [1]).bytes();
    assert_eq!(check_strikes(&w6, &[], &[]), 0);
    assert_eq!(check_strikes(&w6, &[0], &[32]), 14);
    assert_eq!(check_strikes_bytes(&w6, &[], &[]), 0);
    for extra in 1..4 {
        assert_eq!(check_strikes_bytes(&w6, &vec![0; extra], &[]), 14);
        assert_eq!(check_strikes_bytes(&w6, &[], &vec![0; extra]), 14);
    }
}

#[test]
fn hostile_papers_end() {
    // 24 letters and no rules: every state has 2^24 next states.
    let sheet = Draft::new(24).promise(1).bytes();
    let states: Vec<State> = (0..50_000).map(|k| 2 * k).collect();
    let words = vec![33; states.len()];
    assert_eq!(check_strikes(&sheet, &states, &words), 14);
    assert_eq!(judge_with(&sheet, [20_000, 20_000, 40_000, 0]).answer.answer, 11);
    // The same with one first state, so that only next states are many.
    let mut draft = Draft::new(24);
    for letter in 1..=24 {
        draft.first([-letter]);
    }
    let sheet = draft.promise(1).bytes();
    assert_eq!(check_strikes(&sheet, &states, &words), 14);
    assert_eq!(judge_with(&sheet, [20_000, 20_000, 40_000, 0]).answer.answer, 11);
    // Many letters, few states: quick.
    let mut draft = Draft::new(24);
    draft.exactly(1, (1..=24).collect::<Vec<i8>>());
    let answer = judge_with(&draft.bytes(), [24, 24, 48, 1]).answer;
    assert_eq!(answer, Answer { answer: 0, count: 24, a: 0, b: 1, place: 0 });
}

#[test]
fn faults_and_their_places() {
    let faults: &[(&[u8], u32, usize)] = &[
        (&[], 1, 0),
        (&[1, 0, 7, 1, 0, 0, 0], 1, 0),
        (&[2, 0, 9, 0, 33, 0, 0, 17], 2, 0),
        (&[1, 0, 9, 0, 33, 0, 0, 17], 3, 1),
        (&[1, 8, 0, 0, 33, 0, 0, 17], 3, 1),
        (&[1, 0, 8, 0, 33, 0, 0, 17], 4, 3),
        (&[1, 0, 8, 25, 33, 0, 0, 17], 4, 3),
        (&[1, 0, 8, 24, 33, 0, 0, 17], 5, 4),
        (&[1, 0, 8, 24, 32, 0, 0, 17], 5, 7),
        (&[1, 0, 8, 24, 32, 0, 0, 16], 6, 8),
        (&[1, 0, 9, 1, 1, 0, 0, 0, 1], 6, 8),
        (&[1, 0, 9, 1, 1, 0, 0, 0, 0], 7, 8),
        (&[1, 0, 10, 1, 1, 0, 0, 0, 1, 0], 7, 8),
        (&[1, 0, 11, 1, 1, 0, 0, 0, 2, 2, 0], 7, 8),
        (&[1, 0, 11, 1, 1, 0, 0, 0, 2, 1, 255], 0, 0),
        // A first rule of no bytes is no fault; a step rule of none is.
        (&[1, 0, 9, 1, 0, 1, 0, 0, 0], 0, 0),
        (&[1, 0, 9, 1, 0, 0, 1, 0, 0], 7, 8),
        (&[1, 0, 10, 1, 0, 0, 1, 0, 1, 0], 0, 0),
        (&[1, 0, 10, 1, 0, 0, 1, 0, 1, 1], 7, 8),
        (&[1, 0, 9, 1, 0, 0, 0, 1, 0], 7, 8),
        (&[1, 0, 11, 1, 0, 0, 0, 1, 2, 1, 1], 7, 8),
        // Zero, -128, a size above n; 8 before 9 in one literal.
        (&[1, 0, 10, 1, 0, 0, 0, 1, 1, 0], 8, 9),
        (&[1, 0, 10, 24, 0, 0, 0, 1, 1, 128], 8, 9),
        (&[1, 0, 10, 1, 0, 0, 0, 1, 1, 2], 8, 9),
        (&[1, 0, 10, 1, 0, 0, 0, 1, 1, 254], 8, 9),
        (&[1, 0, 11, 2, 0, 1, 0, 0, 2, 2, 0], 8, 10),
        (&[1, 0, 11, 2, 0, 1, 0, 0, 2, 2, 2], 9, 10),
        (&[1, 0, 12, 2, 0, 1, 0, 0, 3, 2, 1, 3], 9, 10),
        (&[1, 0, 12, 2, 0, 1, 0, 0, 3, 254, 255, 1], 0, 0),
        // The two sides of a step rule are two lists.
        (&[1, 0, 12, 1, 0, 0, 1, 0, 3, 1, 1, 255], 0, 0),
        (&[1, 0, 12, 1, 0, 0, 1, 0, 3, 0, 1, 255], 9, 11),
        (&[1, 0, 12, 1, 0, 0, 1, 0, 3, 2, 1, 255], 9, 11),
        // A later record's shape comes after an earlier record's literal.
        (&[1, 0, 11, 1, 0, 1, 1, 0, 1, 0, 0], 8, 9),
        (&[1, 0, 9, 1, 0, 0, 0, 0, 0], 10, 8),
        (&[1, 0, 12, 1, 0, 0, 0, 1, 1, 1, 0, 0], 10, 10),
    ];
    for &(sheet, number, place) in faults {
        assert_eq!(read_number(sheet), number, "{sheet:?}");
        match read(sheet) {
            Ok(_) => assert_eq!(number, 0, "{sheet:?}"),
            Err(fault) => assert_eq!(fault, Fault { number, place }, "{sheet:?}"),
        }
    }
    let mut long = vec![0; 4097];
    long[..3].copy_from_slice(&[1, 0x10, 0x01]);
    assert_eq!(read_number(&long), 1);
    // A sheet of exactly 4,096 bytes: 8 + 255 * 15 + 5 * 50 + 13.
    let mut longest = Draft::new(24);
    longest.first = vec![(1..=14).collect(); 255];
    let both: Vec<i8> = (-12..0).chain(1..=12).collect();
    longest.steps = vec![(both.clone(), both.clone()); 5];
    longest.step([], &both[..11]);
    let sheet = longest.bytes();
    assert_eq!(sheet.len(), 4096);
    assert_eq!(read_number(&sheet), 0);
    let mut cut = sheet[..4095].to_vec();
    cut[1..3].copy_from_slice(&[0x0F, 0xFF]);
    assert_eq!(read(&cut).err(), Some(Fault { number: 6, place: 4083 }));
}
