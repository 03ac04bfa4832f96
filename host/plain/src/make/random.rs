//! Random sheets of many shapes, always good ones.

use super::{Draft, Rng};
use crate::State;

/// A literal of one of the letters.
pub(crate) fn literal(rng: &mut Rng, letters: u8) -> i8 {
    let letter = rng.within(1, letters.into()) as i8;
    if rng.once_in(2) {
        letter
    } else {
        -letter
    }
}

/// About `size` literals; the same letter may come both ways.
pub(crate) fn list(rng: &mut Rng, letters: u8, size: usize) -> Vec<i8> {
    (0..size).map(|_| literal(rng, letters)).collect()
}

/// A list of mostly a few literals, now and then empty or complete.
fn any_list(rng: &mut Rng, letters: u8) -> Vec<i8> {
    match rng.below(16) {
        0 => Vec::new(),
        1 => (1..=letters as i8).flat_map(|k| [k, -k]).filter(|_| !rng.once_in(4)).collect(),
        2 => (1..=letters as i8).collect(),
        3 => (1..=letters as i8).map(|k| -k).collect(),
        _ => {
            let size = rng.within(1, 4);
            list(rng, letters, size)
        }
    }
}

/// A number of letters: mostly 1 to 6, at times up to 24.
pub fn letters(rng: &mut Rng) -> u8 {
    if rng.once_in(6) {
        rng.within(7, 24) as u8
    } else {
        rng.within(1, 6) as u8
    }
}

/// A random draft of one of many shapes, always a good sheet.
pub fn random_draft(rng: &mut Rng, letters: u8) -> Draft {
    match rng.below(9) {
        0 => scattered(rng, letters),
        1 => crowded(rng, letters),
        2 | 3 => machine(rng, letters),
        4 | 5 if letters <= WIRED_LETTERS => wired(rng, letters),
        _ => formula(rng, letters),
    }
}

/// A few records of each kind, with odd lists and any bounds.
fn scattered(rng: &mut Rng, letters: u8) -> Draft {
    let mut draft = Draft::new(letters);
    for _ in 0..rng.below(4) {
        let bound = match rng.below(8) {
            0 => rng.byte(),
            _ => rng.below(letters as usize + 3) as u8,
        };
        draft.limits.push((rng.once_in(2), bound, any_list(rng, letters)));
    }
    for _ in 0..rng.below(4) {
        draft.first.push(any_list(rng, letters));
    }
    for _ in 0..rng.below(8) {
        draft.steps.push((any_list(rng, letters), any_list(rng, letters)));
    }
    for _ in 0..rng.below(5) {
        draft.promises.push(literal(rng, letters));
    }
    draft
}

/// Counts at none or at their maximum, with records so small that they fit.
fn crowded(rng: &mut Rng, letters: u8) -> Draft {
    let mut draft = Draft::new(letters);
    let full = |rng: &mut Rng, most: usize| if rng.once_in(2) { most } else { 0 };
    for _ in 0..full(rng, 32) {
        // Most of these hold often, so that something is left to judge.
        let size = rng.below(4);
        let list = list(rng, letters, size);
        let bound = if rng.once_in(60) { rng.below(3) } else { size + rng.below(2) };
        draft.limits.push((rng.once_in(400), bound as u8, list));
    }
    let most = if rng.once_in(2) { 4 } else { 0 };
    for _ in 0..full(rng, 255) {
        let k = rng.within(1, letters.into()) as i8;
        let mut list = list(rng, letters, most / 2);
        if !rng.once_in(200) {
            list.extend([k, -k]);
        }
        draft.first.push(list);
    }
    for _ in 0..full(rng, 255) {
        let (l, r) = (rng.within(most / 2, 3), rng.within(1, 4));
        draft.steps.push((list(rng, letters, l), list(rng, letters, r)));
    }
    for _ in 0..full(rng, 16) {
        draft.promises.push(literal(rng, letters));
    }
    draft
}

/// Rules such as a student might write: some limits, first rules and step
/// rules of a few literals, some promises.
pub fn formula(rng: &mut Rng, letters: u8) -> Draft {
    let mut draft = Draft::new(letters);
    if rng.once_in(3) {
        for _ in 0..rng.within(1, 2) {
            let size = rng.within(1, letters.into());
            let list = list(rng, letters, size);
            draft.limits.push((rng.once_in(3), rng.within(0, size) as u8, list));
        }
    }
    for _ in 0..rng.below(letters as usize + 1) {
        let size = rng.within(1, 2);
        draft.first.push(list(rng, letters, size));
    }
    // Few rules for few letters, or hardly a move is left.
    let steps = rng.below(2 * letters as usize + 4);
    for _ in 0..steps {
        let (l, r) = (rng.within(1, 3), rng.within(1, 3));
        draft.steps.push((list(rng, letters, l), list(rng, letters, r)));
    }
    for _ in 0..rng.below(5) {
        draft.promises.push(literal(rng, letters));
    }
    draft
}

/// A state machine: exactly one of the letters holds, each letter has a random
/// set of next ones, few enough that dead ends and traps occur.
pub fn machine(rng: &mut Rng, letters: u8) -> Draft {
    let mut draft = Draft::new(letters);
    let all: Vec<i8> = (1..=letters as i8).collect();
    draft.exactly(1, all.clone());
    if !rng.once_in(4) {
        let size = rng.within(1, 2);
        draft.first((0..size).map(|_| *rng.pick(&all)).collect::<Vec<_>>());
    }
    for &here in &all {
        let size = match rng.below(12) {
            0 => 0,
            1 => letters as usize,
            _ => rng.within(1, 2),
        };
        draft.step([here], (0..size).map(|_| *rng.pick(&all)).collect::<Vec<_>>());
    }
    for _ in 0..rng.below(4) {
        let letter = *rng.pick(&all);
        draft.promise(if rng.once_in(3) { letter } else { -letter });
    }
    draft
}

/// The most letters of a wired sheet; more would need too many step rules.
pub const WIRED_LETTERS: u8 = 5;

/// Any graph at all: for each state, step rules whose left sides name that state
/// alone settle the next one. Mostly one long path through all states, with a
/// dead end, a trap or a way back, some jumps, and some letters left free; so
/// striking takes many rounds.
pub fn wired(rng: &mut Rng, letters: u8) -> Draft {
    let letters = letters.min(WIRED_LETTERS);
    let mut draft = Draft::new(letters);
    let mut order: Vec<State> = (0..1 << letters).collect();
    for place in (1..order.len()).rev() {
        order.swap(place, rng.below(place + 1));
    }
    let named = |state: State| -> Vec<i8> {
        (1..=letters as i8).map(|k| if state >> (k - 1) & 1 == 1 { k } else { -k }).collect()
    };
    for literal in named(order[0]) {
        if !rng.once_in(10) {
            draft.first([literal]);
        }
    }
    // One in so many states has a letter free, or jumps; or jumps only onwards.
    let (free, jump) = (rng.within(3, 20), rng.within(3, 20));
    let onwards = rng.once_in(2);
    for (place, &state) in order.iter().enumerate() {
        let next = match &order[place + 1..] {
            [] => match rng.below(4) {
                0 => *rng.pick(&order),
                1 => state,
                _ => {
                    draft.step(named(state), []);
                    continue;
                }
            },
            [next, ..] if !rng.once_in(jump) => *next,
            later if onwards => *rng.pick(later),
            _ => *rng.pick(&order),
        };
        let spared = rng.once_in(free).then(|| rng.below(letters.into()));
        for (letter, literal) in named(next).into_iter().enumerate() {
            if spared != Some(letter) {
                draft.step(named(state), [literal]);
            }
        }
    }
    for _ in 0..rng.below(5) {
        draft.promises.push(literal(rng, letters));
    }
    draft
}

/// A random good sheet of 1 to `most` letters.
pub fn random_sheet(rng: &mut Rng, most: u8) -> Vec<u8> {
    let letters = letters(rng).min(most);
    random_draft(rng, letters).bytes()
}
