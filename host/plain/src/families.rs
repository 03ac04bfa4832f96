//! Sheets as people write them, and the same sheets in other orders.
//!
//! Here letters stand for something that other letters already say: a flag for
//! "the file was open in the summer hour", a directory's copy of what a cache
//! holds. A listing that settles such a letter before those that define it
//! walks in vain unless it sees what is forced. The numbers of the letters say
//! nothing, so each sheet comes in four orders and should cost the same in all.

use crate::make::{add_one, counter, counter_to_dead_end, late_clash, list, literal, random_draft, Draft, Family, Rng};
use crate::sheet::{self, Limit};
use crate::source::{always, football, Team};
use crate::State;

// ---------------------------------------------------------------------------
// Orders of the letters

impl Draft {
    /// The same rules with other numbers: letter k becomes `numbers[k - 1]`.
    pub fn renamed(&self, numbers: &[i8]) -> Draft {
        let other = |literal: i8| {
            let number = numbers[usize::from(literal.unsigned_abs()) - 1];
            number * literal.signum()
        };
        let others = |list: &[i8]| list.iter().map(|&literal| other(literal)).collect::<Vec<_>>();
        Draft {
            letters: self.letters,
            limits: self
                .limits
                .iter()
                .map(|(exactly, bound, list)| (*exactly, *bound, others(list)))
                .collect(),
            first: self.first.iter().map(|list| others(list)).collect(),
            steps: self.steps.iter().map(|(l, r)| (others(l), others(r))).collect(),
            promises: others(&self.promises),
        }
    }

    /// What a good sheet says; nothing for a bad one.
    pub fn of(sheet: &[u8]) -> Option<Draft> {
        let sheet = sheet::read(sheet).ok()?;
        let limit = |limit: Limit<'_>| (limit.exactly, limit.bound, limit.literals.to_vec());
        Some(Draft {
            letters: sheet.letters() as u8,
            limits: sheet.limits().map(limit).collect(),
            first: sheet.first_rules().map(<[i8]>::to_vec).collect(),
            steps: sheet.step_rules().map(|s| (s.left.to_vec(), s.right.to_vec())).collect(),
            promises: sheet.promises().to_vec(),
        })
    }
}

/// A good sheet's bytes with other numbers for its letters, the lists in order
/// again; nothing for a bad sheet.
pub fn renamed(sheet: &[u8], numbers: &[i8]) -> Option<Vec<u8>> {
    Some(Draft::of(sheet)?.renamed(numbers).bytes())
}

/// A state with other numbers for its letters.
pub fn renamed_state(state: State, numbers: &[i8]) -> State {
    let bit = |(letter, &number): (usize, &i8)| (state >> letter & 1) << (number - 1);
    numbers.iter().enumerate().map(bit).sum()
}

/// Some order of so many letters.
pub fn any_order(rng: &mut Rng, letters: u8) -> Vec<i8> {
    let mut numbers: Vec<i8> = (1..=letters as i8).collect();
    for place in (1..numbers.len()).rev() {
        numbers.swap(place, rng.below(place + 1));
    }
    numbers
}

/// The orders in which each family is measured.
pub const ORDERS: [&str; 4] = ["as written", "reversed", "order 1", "order 2"];

/// The numbers of so many letters in each of the [`ORDERS`]: as they are,
/// reversed, and in two random orders that are always the same.
pub fn orders(letters: u8) -> [Vec<i8>; 4] {
    let written: Vec<i8> = (1..=letters as i8).collect();
    let reversed = written.iter().rev().copied().collect();
    let mut rng = Rng::new(12);
    let [one, two] = [0, 1].map(|_| any_order(&mut rng, letters));
    [written, reversed, one, two]
}

/// A good sheet in each of the [`ORDERS`]; nothing for a bad one.
pub fn in_orders(sheet: &[u8]) -> Option<[Vec<u8>; 4]> {
    let draft = Draft::of(sheet)?;
    Some(orders(draft.letters).map(|numbers| draft.renamed(&numbers).bytes()))
}

// ---------------------------------------------------------------------------
// Letters defined by others

/// A letter that holds exactly if both literals are true, at every moment.
fn both(draft: &mut Draft, letter: i8, [one, two]: [i8; 2]) {
    always(draft, &[-one, -two, letter]);
    always(draft, &[one, -letter]);
    always(draft, &[two, -letter]);
}

/// A letter that holds exactly if one of the two literals is true and the other
/// is not, at every moment.
fn one_of_two(draft: &mut Draft, letter: i8, [one, two]: [i8; 2]) {
    for (one, two) in [(one, two), (-one, -two)] {
        always(draft, &[one, two, -letter]);
        always(draft, &[one, -two, letter]);
    }
}

/// A ring of 2^letters states, a binary counter, and above it `flags` letters,
/// each of which says that two of the counter's letters hold, or that one of
/// them holds and another does not.
pub fn ring_with_flags(letters: u8, flags: u8) -> Draft {
    let mut draft = counter(letters);
    draft.letters += flags;
    let count = letters as i8;
    for flag in 0..flags as i8 {
        let (one, two) = (flag % count + 1, (flag + 1 + flag / count) % count + 1);
        let two = if flag % 2 == 0 { two } else { -two };
        both(&mut draft, count + flag + 1, [one, two]);
    }
    draft
}

/// A shift register: each letter takes over what the one below it was, the
/// lowest is free. Above it a flag for each letter, which says that the letter
/// holds and the one above it does not; each flag is promised.
pub fn register_with_flags(letters: u8) -> Draft {
    let mut draft = Draft::new(2 * letters);
    let count = letters as i8;
    for letter in 1..=count {
        draft.first([-letter]);
        if letter < count {
            draft.step([letter], [letter + 1]).step([-letter], [-letter - 1]);
        }
        both(&mut draft, count + letter, [letter, -(letter % count + 1)]);
        draft.promise(count + letter);
    }
    draft
}

/// Six levels of three letters each above six: each letter of a level says
/// something of two letters of the level below. Of the lowest six, three count
/// and three are free.
pub fn chained_definitions() -> Draft {
    let (levels, width) = (6, 3);
    let mut draft = Draft::new(24);
    for letter in 1..=width {
        draft.first([-letter]);
    }
    add_one(&mut draft, 1, width, &[], &[]);
    for place in 0..width {
        // The first level ties one of the letters that count to a free one.
        one_of_two(&mut draft, 7 + place, [1 + place, 4 + place]);
    }
    for level in 1..levels {
        let (here, below) = (7 + level * width, 7 + (level - 1) * width);
        for place in 0..width {
            let pair = [below + place, -(below + (place + 1) % width)];
            if (level + place) % 2 == 0 {
                both(&mut draft, here + place, pair);
            } else {
                one_of_two(&mut draft, here + place, pair);
            }
        }
    }
    draft.promise(24);
    draft
}

// ---------------------------------------------------------------------------
// A cache protocol

/// Caches with a directory, 20 letters whether there are three, four or five.
///
/// Each cache's line is invalid, shared or modified. The directory has a
/// presence letter for each cache. A cache may drop a shared line without a
/// word, so presence says "may have it". A modified line is the only one, and
/// then nobody else is present. Four caches also have a letter each for "asks
/// for the line", without which an invalid line stays so. Three caches have one
/// for asking to read and one for asking to write, and the directory has two
/// more, "shared somewhere" and "modified somewhere".
pub fn cache_protocol(caches: u8) -> Draft {
    let count = caches as i8;
    let mut draft = Draft::new(20);
    let line = |cache: i8| [3 * cache + 1, 3 * cache + 2, 3 * cache + 3];
    let present = |cache: i8| 3 * count + cache + 1;
    let all = 0..count;
    draft.at_most(1, all.clone().map(|cache| line(cache)[2]).collect::<Vec<_>>());
    for cache in all.clone() {
        let ([invalid, shared, modified], here) = (line(cache), present(cache));
        draft.exactly(1, [invalid, shared, modified]).first([invalid]).first([-here]);
        draft.promise(modified);
        for held in [shared, modified] {
            always(&mut draft, &[-held, here]);
        }
        let others: Vec<i8> = all.clone().filter(|&other| other != cache).collect();
        for &other in &others {
            always(&mut draft, &[-modified, -line(other)[1]]);
            always(&mut draft, &[-modified, -present(other)]);
        }
        // The directory forgets a cache only when another writes.
        let writers = others.iter().map(|&other| line(other)[2]);
        draft.step([here], [here].into_iter().chain(writers).collect::<Vec<_>>());
        draft.step([-here], [-here, shared, modified]);
    }
    for cache in all.clone() {
        let ([invalid, shared, modified], first) = (line(cache), 4 * count + 1);
        match caches {
            3 => {
                let (reads, writes) = (first + cache, first + 3 + cache);
                draft.step([invalid, -reads], [-shared]);
                draft.step([-modified, -writes], [-modified]);
                draft.step([reads], [reads, shared, modified]).step([writes], [writes, modified]);
                draft.at_most(1, [reads, writes]).first([-reads]).first([-writes]);
            }
            4 => {
                let asks = first + cache;
                draft.step([invalid, -asks], [invalid]).step([shared, -asks], [-modified]);
                draft.step([asks], [asks, shared, modified]).first([-asks]);
            }
            _ => {}
        }
    }
    if caches == 3 {
        for (kind, somewhere) in [(1, 19), (2, 20)] {
            let lines: Vec<i8> = all.clone().map(|cache| line(cache)[kind]).collect();
            for &line in &lines {
                always(&mut draft, &[-line, somewhere]);
            }
            always(&mut draft, &[&lines[..], &[-somewhere]].concat());
        }
    }
    draft
}

// ---------------------------------------------------------------------------
// Late clashes and a bad case

/// Where the two lowest letters are at odds.
#[derive(Clone, Copy, Debug, PartialEq, Eq)]
pub enum Clash {
    /// Between first rules: there is no first state.
    First,
    /// Between limits: there is no lawful state.
    Limits,
    /// After one move: there is one first state, and it has no next state.
    Move,
}

/// The two lowest letters are at odds whatever the others do. `rules` first
/// rules or step rules in all: those at odds and others that name the two
/// lowest letters and a higher one.
pub fn clash(letters: u8, rules: u8, clash: Clash) -> Draft {
    if clash == Clash::Move {
        return late_clash(letters, rules - 4);
    }
    let mut draft = Draft::new(letters);
    if clash == Clash::First {
        draft.first = vec![vec![1, 2], vec![1, -2], vec![-1, 2], vec![-1, -2]];
    } else {
        draft.exactly(1, [1, 2]).exactly(1, [1, -2]);
    }
    for rule in draft.first.len() as u8..rules {
        let high = 3 + (rule % (letters - 2)) as i8;
        draft.first([-high, 1, 2]);
    }
    draft
}

/// Made to take long: 24 letters, 32 limits over all literals, each of which
/// holds whatever the state, and 255 first rules, four of which are at odds over
/// the two lowest letters. There is no first state.
pub fn bad_case() -> Draft {
    let mut draft = clash(24, 255, Clash::First);
    let all: Vec<i8> = (1..=24).flat_map(|letter| [letter, -letter]).collect();
    for _ in 0..32 {
        draft.exactly(24, all.clone());
    }
    draft
}

/// What no look at single rows sees. The limits say by turns that half of all
/// letters hold, and the same with the lowest letter turned, which makes the
/// count odd where it was even. There is no lawful state, but a branch shows
/// that only when nearly all its letters are settled. `rules` first rules are
/// looked at on the way.
pub fn odd_clash(letters: u8, limits: u8, rules: u8) -> Draft {
    let mut draft = Draft::new(letters);
    for limit in 0..limits {
        let lowest = if limit % 2 == 0 { 1 } else { -1 };
        let list = [lowest].into_iter().chain(2..=letters as i8);
        draft.exactly(letters / 2, list.collect::<Vec<_>>());
    }
    for rule in 0..rules {
        let high = 3 + (rule % (letters - 2)) as i8;
        draft.first([-high, 1, 2]);
    }
    draft
}

// ---------------------------------------------------------------------------
// Random ones

/// The most letters whose rules are drawn; the others say something of them.
const OWN_LETTERS: usize = 5;

/// A random sheet as people write them: rules about a few letters, and helper
/// letters that say something of these and of each other. It has few reachable
/// states, however many letters. Mostly the letters are in no order; now and
/// then some rules are at odds over two letters.
pub fn written(rng: &mut Rng, letters: u8) -> Draft {
    let own = rng.within(1, OWN_LETTERS.min(letters.into())) as u8;
    let mut draft = random_draft(rng, own);
    draft.letters = letters;
    for helper in own as i8 + 1..=letters as i8 {
        add_helper(rng, &mut draft, helper);
    }
    for _ in 0..rng.below(3) {
        draft.promise(literal(rng, letters));
    }
    if rng.once_in(6) && letters > 1 {
        add_clash(rng, &mut draft);
    }
    draft.limits.truncate(sheet::MOST_LIMITS.into());
    draft.promises.truncate(sheet::MOST_PROMISES.into());
    if rng.once_in(4) {
        return draft;
    }
    let numbers = any_order(rng, letters);
    draft.renamed(&numbers)
}

/// A rule or two for a letter above all those that have rules: it says
/// something of two of them, or of the moment before, or it is free.
fn add_helper(rng: &mut Rng, draft: &mut Draft, helper: i8) {
    let below = helper as u8 - 1;
    let pair = [literal(rng, below), literal(rng, below)];
    // Each of these takes at most four rules of either kind.
    let full = draft.steps.len().max(draft.first.len()) > 250;
    match rng.below(if full { 2 } else { 12 }) {
        // The opposite, by a limit; or the same.
        0 => drop(draft.exactly(1, [pair[0], helper])),
        1 => drop(draft.exactly(1, [pair[0], -helper])),
        2..=4 => both(draft, helper, pair),
        5 | 6 => both(draft, -helper, pair),
        7 | 8 => one_of_two(draft, helper, pair),
        // What was true the moment before.
        9 => drop(draft.step([pair[0]], [helper]).step([-pair[0]], [-helper]).first([-helper])),
        // What has been true.
        10 => {
            always(draft, &[-pair[0], helper]);
            draft.step([helper], [helper]).step([-helper], [-helper, pair[0]]);
            draft.first([-helper, pair[0]]);
        }
        // Mostly settled after all.
        _ => drop(draft.first([helper]).step([], [if rng.once_in(4) { -helper } else { helper }])),
    }
}

/// Rules at odds over two letters: first rules, limits, or step rules that ask
/// for them after some states.
fn add_clash(rng: &mut Rng, draft: &mut Draft) {
    let one = rng.within(1, draft.letters as usize - 1) as i8;
    let two = one + 1;
    let clauses = [[one, two], [one, -two], [-one, two], [-one, -two]];
    match rng.below(4) {
        0 if draft.first.len() < 252 => draft.first.extend(clauses.map(Vec::from)),
        1 if draft.limits.len() < 31 => {
            draft.exactly(1, [one, two]).exactly(1, [one, -two]);
        }
        _ if draft.steps.len() < 252 => {
            let left = literal(rng, draft.letters);
            draft.steps.extend(clauses.map(|right| (vec![left], Vec::from(right))));
        }
        _ => {}
    }
}

/// The families that are measured in four orders.
pub fn families() -> Vec<Family> {
    let mut families = Vec::new();
    let mut add = |name: &str, draft: Draft| {
        families.push(Family { name: name.to_string(), sheet: draft.bytes() });
    };
    add("ring of 8 letters with 16 flags", ring_with_flags(8, 16));
    add("ring of 8 letters with 8 flags", ring_with_flags(8, 8));
    add("register of 12 letters with 12 flags", register_with_flags(12));
    for caches in 3..=5 {
        add(&format!("cache protocol, {caches} caches"), cache_protocol(caches));
    }
    add("five-a-side football", football(Team::Plain));
    add("football, viable team", football(Team::Viable));
    add("football, goalkeeper", football(Team::Goalkeeper));
    add("football, all injured", football(Team::AllInjured));
    add("definitions chained six deep", chained_definitions());
    families
}

/// The families that clash late, which are measured in four orders, too.
pub fn clashes() -> Vec<Family> {
    let mut families = Vec::new();
    for (place, where_to) in [
        ("between first rules", Clash::First),
        ("between limits", Clash::Limits),
        ("after one move", Clash::Move),
    ] {
        for letters in [20, 24] {
            for rules in [4, 255] {
                let name = format!("late clash {place}, {letters} letters, {rules} rules");
                let sheet = clash(letters, rules, where_to).bytes();
                families.push(Family { name, sheet });
            }
        }
    }
    let name = "bad case of 24 letters, 32 limits, 255 rules".to_string();
    families.push(Family { name, sheet: bad_case().bytes() });
    families
}

/// Sheets for which listing still takes long: no row alone shows that they have
/// no lawful state.
pub fn odd_clashes() -> Vec<Family> {
    let family = |letters, limits, rules| {
        let name = format!("odd clash, {letters} letters, {limits} limits, {rules} rules");
        Family { name, sheet: odd_clash(letters, limits, rules).bytes() }
    };
    vec![family(16, 2, 0), family(20, 2, 0), family(24, 2, 0), family(24, 32, 255)]
}

// ---------------------------------------------------------------------------
// Rules of which two fight

/// 24 letters and 255 step rules, of which the two with these numbers fight.
///
/// One of letters 1 to 8 holds, the mode. Letters 9 to 16 are free, and 17 to 24
/// are their opposites: 2,048 lawful states, all of them first states. Letter 9
/// is promised; of the two rules that fight, one says that it ends, the other
/// that it does not come back.
///
/// Each other rule, drawn at random, asks for one of so many literals in some
/// mode, mostly where some other letter holds or does not. One of them is true in
/// two states that differ in letter 9 and its opposite alone. These can always
/// follow, so the other rules can be kept with either of the two that fight.
pub fn two_fight(fighting: [usize; 2], asked: usize) -> Draft {
    const MODES: usize = 8;
    let mut draft = Draft::new(24);
    draft.exactly(1, (1..=MODES as i8).collect::<Vec<_>>()).promise(9);
    for letter in 9..=16 {
        draft.exactly(1, [letter, letter + 8]);
    }
    let rng = &mut Rng::new(5);
    for number in 1..=255 {
        if number == fighting[0] {
            draft.step([9], [-9]);
        } else if number == fighting[1] {
            draft.step([-9], [-9]);
        } else {
            let (mode, other) = (rng.within(1, MODES) as i8, literal(rng, 24));
            let left = if rng.once_in(4) { vec![mode] } else { vec![mode, other] };
            // In the two states the mode is 1, and none of letters 10 to 16 holds.
            let letter = *rng.pick(&[-1, 10, 11, 12, 13, 14, 15, 16]);
            let mut right = list(rng, 24, asked - 1);
            right.push(-letter);
            draft.step(left, right);
        }
    }
    draft
}

// ---------------------------------------------------------------------------
// Many rounds, many states

/// A counter of so many letters to a dead end, begun in one state more, from
/// which any of 64 numbers follows; 16 promises of the lowest letter, so that two
/// states fall in a round; and rules that never ask, up to 255 in all, since they
/// speak of the first state with a letter of the counter.
pub fn crowded_counter(letters: u8) -> Draft {
    let mut draft = Draft::new(letters + 1);
    let (high, begins) = (letters as i8, letters as i8 + 1);
    add_one(&mut draft, 1, high, &[-begins], &[]);
    draft.first([begins]).step([], [-begins]);
    for letter in 1..=high {
        draft.first([-letter]);
        if letter > 6 {
            draft.step([begins], [-letter]);
        }
    }
    draft.step((1..=high).collect::<Vec<_>>(), []);
    for _ in 0..16 {
        draft.promise(1);
    }
    for number in draft.steps.len()..255 {
        let letter = (number % letters as usize) as i8 + 1;
        draft.step([letter, begins], [-letter]);
    }
    draft
}

/// Random rules over 13 to 20 letters, and at least so many promises.
fn random_rules(rng: &mut Rng, promises: usize) -> Draft {
    let letters = rng.within(13, 20) as u8;
    let mut draft = Draft::new(letters);
    for _ in 0..rng.below(5) {
        let size = rng.within(3, letters as usize / 2);
        let limit = list(rng, letters, size);
        draft.at_most(rng.within(1, size - 1) as u8, limit);
    }
    for _ in 0..rng.within(1, 3) {
        let size = rng.within(1, 2);
        let first = list(rng, letters, size);
        draft.first(first);
    }
    for _ in 0..rng.within(8, 40) {
        let (one, two) = (rng.within(1, 3), rng.within(1, 3));
        let (left, right) = (list(rng, letters, one), list(rng, letters, two));
        draft.step(left, right);
    }
    for _ in 0..rng.within(promises, 16) {
        let literal = literal(rng, letters);
        draft.promise(literal);
    }
    draft
}

/// Random rules by which many states are reached: 8,000 to 16,384 of them.
pub fn many_states(seed: u64) -> Draft {
    let rng = &mut Rng::new(seed);
    loop {
        let draft = random_rules(rng, 2);
        if draft.bytes().len() <= 600 {
            let found = crate::judge::explored(&draft.bytes(), 16_384).and_then(|found| found.states);
            if found.is_some_and(|states| states >= 8_000) {
                return draft;
            }
        }
    }
}

/// Seeds of random rules with 12 to 16 promises by which 8,000 to 16,384 states
/// are reached and struck in several rounds: such are rare, and were searched for.
pub const MANY_ROUNDS: [u64; 2] = [280, 101_087];

/// The random rules of such a seed.
pub fn many_rounds(seed: u64) -> Draft {
    random_rules(&mut Rng::new(seed), 12)
}

/// Rules that take one from the number made up of letters 1 to `high`, where `when`
/// holds: a letter turns over exactly when none below it holds.
fn take_one(draft: &mut Draft, high: i8, when: i8) {
    for letter in 1..=high {
        let none_below: Vec<i8> = std::iter::once(when).chain((1..letter).map(|lower| -lower)).collect();
        for turned in [letter, -letter] {
            draft.step([&none_below[..], &[turned]].concat(), [-turned]);
            for lower in 1..letter {
                draft.step([when, lower, turned], [turned]);
            }
        }
    }
}

/// The rounds at their worst: a chain of 2^letters states whose last one moves to
/// each of 2^helpers helpers. A helper moves to a number that counts down to a
/// dead end, so that in each round one helper is struck. All states of the chain
/// hang on the last one, and the last one on the first helper that is left: in
/// each round all are cut off and hung anew. Only the chain does not keep the
/// promises, 16 times the same.
pub fn rehung_chain(letters: u8, helpers: u8) -> Draft {
    let mut draft = Draft::new(letters + 3);
    let (high, low) = (letters as i8, helpers as i8);
    let (chain, helper, falling) = (high + 1, high + 2, high + 3);
    draft.exactly(1, [chain, helper, falling]).first([chain]);
    add_one(&mut draft, 1, high, &[chain], &[helper]);
    let mut last: Vec<i8> = (1..=high).collect();
    last.push(chain);
    draft.step(last.clone(), [helper]);
    for letter in 1..=high {
        draft.first([-letter]).step([chain, -letter], [chain]);
        if letter > low {
            draft.step(last.clone(), [-letter]).step([helper], [-letter]).step([falling], [-letter]);
        } else {
            draft.step([helper, letter], [letter]).step([helper, -letter], [-letter]);
        }
    }
    draft.step([helper], [falling]).step([falling], [falling]);
    take_one(&mut draft, low, falling);
    draft.step((1..=low).map(|letter| -letter).chain([falling]).collect::<Vec<_>>(), []);
    for _ in 0..16 {
        draft.promise(-chain);
    }
    draft
}

/// A counter to a dead end beside free letters, so that each state has 2^free next
/// states, and a round for each number. The moves are too many to be stored one by
/// one, and as many of the first states as there are numbers are of different
/// classes; beside 9 free letters they are not stored at all. 16 promises of the
/// lowest letter.
pub fn counter_beside(letters: u8, free: u8) -> Draft {
    let mut draft = counter_to_dead_end(letters);
    draft.letters += free;
    for _ in 0..16 {
        draft.promise(1);
    }
    draft
}

/// The families with many rounds or many states.
pub fn many() -> Vec<Family> {
    let counters = [9, 10, 11, 12].map(|letters| Family {
        name: format!("crowded counter of {letters} letters"),
        sheet: crowded_counter(letters).bytes(),
    });
    let random = (1..=10).map(|seed| Family {
        name: format!("many states, seed {seed}"),
        sheet: many_states(seed).bytes(),
    });
    let hung = [(9, 7), (10, 8), (11, 8)].map(|(letters, helpers)| Family {
        name: format!("chain of 2^{letters} states hung anew, 2^{helpers} helpers"),
        sheet: rehung_chain(letters, helpers).bytes(),
    });
    let beside = [(7, 5), (8, 5), (9, 5), (5, 9)].map(|(letters, free)| Family {
        name: format!("counter of {letters} letters to a dead end beside {free} free letters"),
        sheet: counter_beside(letters, free).bytes(),
    });
    let rounds = MANY_ROUNDS.iter().map(|&seed| Family {
        name: format!("many states and rounds, seed {seed}"),
        sheet: many_rounds(seed).bytes(),
    });
    counters.into_iter().chain(hung).chain(beside).chain(random).chain(rounds).collect()
}
