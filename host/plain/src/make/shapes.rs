//! Sheets of other shapes: limits alone, no rules, nearly every move, late clashes.

use super::Draft;

/// W15, 003's robots.
pub fn w15() -> Draft {
    let mut draft = Draft::new(15);
    for robot in 1..=5 {
        draft.exactly(1, [robot, robot + 5, robot + 10]);
    }
    draft.exactly(3, [1, 2, 3, 4, 5]).at_most(2, [11, 12, 13, 14, 15]);
    draft.first([1]).first([2]).first([3]);
    for robot in 1..=5 {
        draft.step([robot], [robot + 10]);
    }
    draft
}

/// Exactly `bound` of all letters, and no other rule.
pub fn exactly(letters: u8, bound: u8) -> Draft {
    let mut draft = Draft::new(letters);
    draft.exactly(bound, (1..=letters as i8).collect::<Vec<_>>());
    draft
}

/// Letters and no rules at all.
pub fn free(letters: u8) -> Draft {
    Draft::new(letters)
}

/// The hardest kind of sheet for a walk that settles letters from the highest:
/// the one first state has no next state, because the two lowest letters are at
/// odds whatever the others do, and every branch is walked down to them.
/// `rules` more step rules, which every state asks for and meets late, are
/// tested on the way.
pub fn late_clash(letters: u8, rules: u8) -> Draft {
    let mut draft = Draft::new(letters);
    for letter in 1..=letters as i8 {
        draft.first([-letter]);
    }
    for (one, two) in [(1, 2), (1, -2), (-1, 2), (-1, -2)] {
        let mut clash = [one, two];
        clash.sort();
        draft.step([], clash);
    }
    for rule in 0..rules {
        let high = 3 + (rule % (letters - 2)) as i8;
        draft.step([], [-high, 1, 2]);
    }
    draft
}

/// Nearly every move, yet nearly every state asks for something else: each
/// letter asks for one of all the others, some of them not holding.
pub fn dense(letters: u8) -> Draft {
    let mut draft = Draft::new(letters);
    let all = 1..=letters as i8;
    for here in all.clone() {
        let others = all.clone().filter(|&other| other != here);
        let turned = others.map(|other| if (here + other) % 3 == 0 { -other } else { other });
        draft.step([here], turned.collect::<Vec<_>>());
    }
    for letter in all.take(16) {
        draft.promise(letter);
    }
    draft
}

/// Of `rules` step rules all but a few never ask: [`dense`], and right sides
/// that name a letter and its opposite. Their left sides differ, so that hardly
/// two states make the same ones true.
pub fn mostly_idle(letters: u8, rules: usize) -> Draft {
    let mut draft = dense(letters);
    let all = letters as usize;
    for rule in all..rules {
        let here = rule % all;
        let other = (here + 1 + rule / all % (all - 1)) % all;
        let letter = other as i8 + 1;
        draft.step([here as i8 + 1], [-letter, letter]);
    }
    draft
}

/// The same rules, and a letter more that never holds and is promised alone:
/// every state that has a way on is struck for that, in one round.
pub fn never(mut draft: Draft) -> Draft {
    draft.letters += 1;
    let letter = draft.letters as i8;
    draft.exactly(0, [letter]);
    draft.promises = vec![letter];
    draft
}
