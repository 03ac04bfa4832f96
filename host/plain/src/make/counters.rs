//! Sheets that count: one long circle or chain of states, and what is made of it.

use super::{Draft, Rng};
use crate::State;

/// Step rules that add one to the number made up of letters `low` to `high`,
/// `low` being worth least. A letter turns over exactly when all below it hold.
/// Each rule's left side begins with `when`, its right side with `unless`.
pub(crate) fn add_one(draft: &mut Draft, low: i8, high: i8, when: &[i8], unless: &[i8]) {
    let mut rule = |left: &[i8], right: i8| {
        draft.step([when, left].concat(), [unless, &[right]].concat());
    };
    for letter in low..=high {
        let below: Vec<i8> = (low..letter).collect();
        rule(&[&below[..], &[-letter]].concat(), letter);
        rule(&[&below[..], &[letter]].concat(), -letter);
        for &lower in &below {
            rule(&[-lower, letter], letter);
            rule(&[-lower, -letter], -letter);
        }
    }
}

/// A binary counter that starts at 0: one circle of 2^letters states. At most
/// 15 letters fit.
pub fn counter(letters: u8) -> Draft {
    let mut draft = Draft::new(letters);
    let high = letters as i8;
    for letter in 1..=high {
        draft.first([-letter]);
    }
    add_one(&mut draft, 1, high, &[], &[]);
    draft
}

/// A counter whose last state, where all letters hold, goes back to the number
/// `back` instead of 0: the letters of that number stay as they are there.
pub fn counter_back_to(letters: u8, back: State) -> Draft {
    let mut draft = counter(letters);
    let high = letters as i8;
    let all: Vec<i8> = (1..=high).collect();
    for letter in (1..=high).filter(|letter| back >> (letter - 1) & 1 == 1) {
        let up_to: Vec<i8> = (1..=letter).collect();
        draft.steps.retain(|(left, right)| (left, &right[..]) != (&up_to, &[-letter]));
        for higher in letter + 1..=high {
            draft.step([&up_to[..], &[-higher]].concat(), [-letter]);
        }
        draft.step(all.clone(), [letter]);
    }
    draft
}

/// A counter with one state more, in which it begins and which it never comes
/// back to: 2^letters + 1 states.
pub fn counter_with_a_beginning(letters: u8) -> Draft {
    let mut draft = counter(letters);
    draft.letters += 1;
    let begins = draft.letters as i8;
    draft.first([begins]).step([], [-begins]);
    draft
}

/// A counter that has no way on from its last state: 2^letters rounds.
pub fn counter_to_dead_end(letters: u8) -> Draft {
    let mut draft = counter(letters);
    draft.step((1..=letters as i8).collect::<Vec<_>>(), []);
    draft
}

/// A counter with a few of its rules left out, so that some letters are free at
/// some moves; with a few promises; sometimes with states that have no way on:
/// many states with few next states each, in all kinds of circles and chains.
pub fn loosened_counter(rng: &mut Rng, letters: u8) -> Draft {
    let mut draft = counter(letters);
    for _ in 0..rng.below(4) {
        let rule = rng.below(draft.steps.len());
        draft.steps.remove(rule);
    }
    let literal = |rng: &mut Rng| {
        let letter = rng.within(1, letters as usize) as i8;
        if rng.below(2) == 0 {
            letter
        } else {
            -letter
        }
    };
    for _ in 0..rng.below(4) {
        let promised = literal(rng);
        draft.promise(promised);
    }
    for _ in 0..rng.below(3) {
        let mut held: Vec<i8> = (0..rng.within(3, 8)).map(|_| literal(rng)).collect();
        held.sort();
        held.dedup();
        draft.step(held, []);
    }
    draft
}

/// A chain of promises that falls one state and mostly one round at a time.
///
/// The lowest `bits` letters count laps; the 16 letters above are places,
/// exactly one of which holds. Each state may stay or go on to the next place,
/// from the last place to the first of the next lap; the last place of the last
/// lap can only stay. Promise i is "not at place i", so staying breaks it. The
/// last state falls for promise 16, then the one before it for 15, which waits
/// for the next round, and so on: 15 rounds for 16 states.
pub fn falling_promises(bits: u8) -> Draft {
    let mut draft = Draft::new(bits + 16);
    let bits = bits as i8;
    let (home, end) = (bits + 1, bits + 16);
    draft.exactly(1, (home..=end).collect::<Vec<_>>()).first([home]);
    for letter in 1..=bits {
        draft.first([-letter]);
        // The lap stays the same away from the last place, and on staying there.
        draft.step([-end, letter], [letter]).step([-end, -letter], [-letter]);
        draft.step([end, letter], [-end, letter]).step([end, -letter], [-end, -letter]);
    }
    for place in home..end {
        draft.step([place], [place, place + 1]);
    }
    draft.step([end], [end, home]);
    // On going from the last place to the first, the lap is one more.
    add_one(&mut draft, 1, bits, &[end], &[-home]);
    let mut last: Vec<i8> = (1..=bits).collect();
    last.push(end);
    draft.step(last, [end]);
    for place in home..=end {
        draft.promise(-place);
    }
    draft
}

/// A sample run of exactly K times p moments: a counter with one more letter
/// that holds only in its last state, promised `promises` times over. The aim
/// passes once in each round of the counter.
pub fn long_run(letters: u8, promises: u8) -> Draft {
    long_run_back_to(letters, promises, 0)
}

/// The same over a counter that goes back to the number `back`: so many moments
/// before the circle, which is then gone round once for each promise.
pub fn long_run_back_to(letters: u8, promises: u8, back: State) -> Draft {
    let mut draft = counter_back_to(letters, back);
    draft.letters += 1;
    let (high, mark) = (letters as i8, letters as i8 + 1);
    draft.first([-mark]);
    let mut last_but_one: Vec<i8> = (2..=high).collect();
    draft.step([1], [-mark]);
    for &letter in &last_but_one {
        draft.step([-letter], [-mark]);
    }
    last_but_one.push(-1);
    draft.step(last_but_one, [mark]);
    for _ in 0..promises {
        draft.promise(mark);
    }
    draft
}
