//! The two checkers: random sheets, and papers that are right, damaged or made up.

use crate::{differs, Tally};
use naxxurbi_calls::{check_run, check_strikes, state_bytes, word_bytes, State};
use plain::check::{check_run_bytes, check_strikes_bytes};
use plain::judge::judge;
use plain::list::{first_states, next_states};
use plain::make::{self, damage, letters, random_draft, Draft, Rng, DAMAGES};
use plain::rules::Rules;
use plain::sheet::read;
use plain::source;

/// The most letters of a sheet whose states are listed whole to draw papers from them.
const FEW_LETTERS: u8 = 10;

/// The room lent for papers.
const STATES: usize = 1024;
const MOMENTS: usize = 16_384;

/// A run: states and the place that is gone back to.
type Run = (Vec<State>, u32);
/// A strike list: states and words.
type List = (Vec<State>, Vec<u32>);

/// Numbers, and whether both checkers say them alike.
pub struct Checked<'t> {
    /// The run checker's.
    pub runs: &'t mut Tally,
    /// The strike checker's.
    pub lists: &'t mut Tally,
}

impl Checked<'_> {
    fn run(&mut self, sheet: &[u8], states: &[u8], a: u32) -> bool {
        let ours = check_run(sheet, states, a);
        let plain = check_run_bytes(sheet, states, a);
        self.runs.count(plain);
        if differs("run checker", sheet, &ours, &plain) {
            println!("  states {states:02x?}, a {a}");
            return false;
        }
        true
    }

    fn list(&mut self, sheet: &[u8], states: &[u8], words: &[u8]) -> bool {
        let ours = check_strikes(sheet, states, words);
        let plain = check_strikes_bytes(sheet, states, words);
        self.lists.count(plain);
        if differs("strike checker", sheet, &ours, &plain) {
            println!("  states {states:02x?}\n  words {words:02x?}");
            return false;
        }
        true
    }
}

/// The judge's paper, if it has one and there is room: a run or a strike list.
fn paper(sheet: &[u8]) -> (Option<Run>, Option<List>) {
    let (mut table, mut words) = (vec![7; STATES], vec![7; STATES]);
    let (mut scratch, mut run) = (vec![7; 2 * STATES], vec![7; MOMENTS]);
    let answer = judge(sheet, &mut table, &mut words, &mut scratch, &mut run);
    match answer.answer {
        0 => (Some((run[..answer.b as usize].to_vec(), answer.a)), None),
        13 => {
            let count = answer.count as usize;
            (None, Some((table[..count].to_vec(), words[..count].to_vec())))
        }
        _ => (None, None),
    }
}

/// Moves at random from a first state, and back to some place: right if the moves go on, the last one closes and the promises are kept.
fn wander(rng: &mut Rng, rules: &Rules) -> Run {
    let first = first_states(rules);
    let mut states = Vec::new();
    let mut next = first;
    for _ in 0..rng.within(1, 12) {
        if next.is_empty() {
            break;
        }
        let state = *rng.pick(&next);
        states.push(state);
        next = next_states(rules, state);
    }
    let back: Vec<usize> = (0..states.len()).filter(|&place| next.contains(&states[place])).collect();
    let a = if back.is_empty() { rng.below(states.len() + 1) } else { *rng.pick(&back) };
    (states, a as u32)
}

/// A run out of nothing.
fn made_up_run(rng: &mut Rng, letters: u8) -> Run {
    let states: Vec<State> = (0..rng.below(5)).map(|_| any_state(rng, letters)).collect();
    let a = rng.below(states.len() + 2) as u32;
    (states, a)
}

/// A state, now and then one that is none.
fn any_state(rng: &mut Rng, letters: u8) -> State {
    match rng.below(12) {
        0 => 1 << letters.min(31),
        1 => rng.number() as u32 as State,
        _ => rng.below(1 << letters) as State,
    }
}

/// A strike list out of nothing: all states or a few, with words that mostly rise.
fn made_up_list(rng: &mut Rng, letters: u8) -> List {
    let mut states: Vec<State> = match rng.below(3) {
        0 if letters <= FEW_LETTERS => (0..1 << letters).collect(),
        _ => (0..rng.below(8)).map(|_| any_state(rng, letters)).collect(),
    };
    if rng.once_in(3) {
        states.reverse();
    }
    let mut word = rng.below(40) as u32;
    let words = states
        .iter()
        .map(|_| {
            word += *rng.pick(&[0, 0, 0, 1, 31, 32]);
            word
        })
        .collect();
    (states, words)
}

/// Damages a run in some way, or leaves it as it is.
fn spoil_run(rng: &mut Rng, letters: u8, (states, a): &mut Run) {
    let place = rng.below(states.len());
    if !states.is_empty() {
        match rng.below(12) {
            0 => states[place] ^= 1 << rng.below(letters.into()),
            1 => states[place] |= 1 << rng.within(letters.into(), 31),
            2 => states[place] = any_state(rng, letters),
            3 => states.truncate(place),
            4 => drop(states.remove(place)),
            5 => states.insert(place, states[place]),
            6 => states.push(states[place]),
            7 => states.swap(0, place),
            _ => {}
        }
    }
    match rng.below(10) {
        0 => *a = rng.below(states.len() + 2) as u32,
        1 => *a = a.wrapping_add(1),
        2 => *a = a.wrapping_sub(1),
        3 => *a = rng.number() as u32,
        _ => {}
    }
}

/// Damages a strike list in some way, or leaves it as it is. Words moved by whole rounds stay right, and so do doubles with later words.
fn spoil_list(rng: &mut Rng, letters: u8, (states, words): &mut List) {
    let count = states.len().min(words.len());
    if count == 0 {
        states.push(any_state(rng, letters));
        words.push(rng.below(40) as u32);
        return;
    }
    let place = rng.below(count);
    match rng.below(18) {
        0 => states[place] ^= 1 << rng.below(letters.into()),
        1 => states[place] |= 1 << rng.within(letters.into(), 31),
        2 => words[place] ^= 1 << rng.below(8),
        3 => words[place] = words[place].wrapping_add(*rng.pick(&[1, 32, 64, u32::MAX, u32::MAX - 31])),
        4 => words[place] = rng.number() as u32,
        5 => drop((states.remove(place), words.remove(place))),
        6 => drop(states.remove(place)),
        7 => drop(words.remove(place)),
        // A state a second time, at its word or later; or earlier, which is mostly wrong.
        8 | 9 => {
            let later = rng.within(place, count - 1);
            let (state, word) = (states[place], words[later]);
            states.insert(later + 1, state);
            words.insert(later + 1, word);
        }
        10 => {
            let (state, word) = (states[place], words[0]);
            states.insert(0, state);
            words.insert(0, word);
        }
        11 => states.swap(0, place),
        12 => words.swap(0, place),
        // By whole rounds, down to words below 32 and up to the highest that there are.
        13 => words.iter_mut().for_each(|word| *word = word.wrapping_sub(32)),
        14 => {
            let rise = (u32::MAX - words[count - 1]) / 32 * 32;
            words.iter_mut().for_each(|word| *word = word.wrapping_add(rise));
        }
        // Any order at all.
        15 => {
            states.reverse();
            words.reverse();
        }
        _ => {}
    }
}

/// A paper's bytes, at times with some left over or missing.
fn odd(rng: &mut Rng, mut bytes: Vec<u8>) -> Vec<u8> {
    if rng.once_in(40) {
        match rng.below(2) {
            0 => bytes.extend((0..rng.within(1, 7)).map(|_| rng.byte() & 1).collect::<Vec<_>>()),
            _ => bytes.truncate(bytes.len() - rng.below(bytes.len().min(7) + 1)),
        }
    }
    bytes
}

pub fn suite(rng: &mut Rng, rounds: usize) -> bool {
    let mut runs = Tally::new("run checker");
    let mut lists = Tally::new("strike checker");
    let mut checked = Checked { runs: &mut runs, lists: &mut lists };
    for _ in 0..rounds {
        let letters = letters(rng);
        let mut sheet = random_draft(rng, letters).bytes();
        let letters = sheet[3];
        let (run, list) = paper(&sheet);
        if !run.iter().all(|(states, a)| checked.run(&sheet, &state_bytes(states), *a)) {
            return false;
        }
        if !list.iter().all(|(states, words)| checked.list(&sheet, &state_bytes(states), &word_bytes(words))) {
            return false;
        }
        let rules = (letters <= FEW_LETTERS).then(|| Rules::new(&read(&sheet).expect("a good sheet")));
        if rng.once_in(8) {
            let way = rng.below(DAMAGES);
            sheet = damage(rng, &sheet, way);
        }
        for _ in 0..6 {
            let mut proposed = match (&run, &rules) {
                (Some(run), _) if !rng.once_in(3) => run.clone(),
                (_, Some(rules)) if !rng.once_in(3) => wander(rng, rules),
                _ => made_up_run(rng, letters),
            };
            spoil_run(rng, letters, &mut proposed);
            if !checked.run(&sheet, &odd(rng, state_bytes(&proposed.0)), proposed.1) {
                return false;
            }
            let mut proposed = match &list {
                Some(list) if !rng.once_in(5) => list.clone(),
                _ => made_up_list(rng, letters),
            };
            spoil_list(rng, letters, &mut proposed);
            let (states, words) = (odd(rng, state_bytes(&proposed.0)), odd(rng, word_bytes(&proposed.1)));
            if !checked.list(&sheet, &states, &words) {
                return false;
            }
        }
    }
    let wanted = [0, 1, 2, 3, 4, 5, 6, 7, 8, 9, 10, 14];
    runs.complete(&wanted) & lists.complete(&wanted)
}

/// Long runs, long lists, many next states; then papers made to take long.
pub fn large(rng: &mut Rng, _: usize) -> bool {
    let mut runs = Tally::new("run checker, large");
    let mut lists = Tally::new("strike checker, large");
    let mut checked = Checked { runs: &mut runs, lists: &mut lists };
    let drafts = [
        make::long_run(10, 16),
        make::counter(10),
        make::counter_to_dead_end(10),
        make::falling_promises(6),
        make::never(make::free(10)),
        make::never(make::dense(8)),
    ];
    let mut sheets: Vec<Vec<u8>> = drafts.iter().map(Draft::bytes).collect();
    sheets.extend(source::families().into_iter().map(|family| family.sheet));
    sheets.iter().all(|sheet| papers(rng, &mut checked, sheet))
        && hostile(&mut checked)
        && runs.complete(&[0, 14]) & lists.complete(&[0, 14])
}

/// The judge's paper: right, a strike list with every entry doubled, and damaged.
pub fn papers(rng: &mut Rng, checked: &mut Checked, sheet: &[u8]) -> bool {
    let (run, list) = paper(sheet);
    (0..8).all(|time| {
        let right = run.clone().is_none_or(|mut run| {
            if time > 0 {
                spoil_run(rng, sheet[3], &mut run);
            }
            checked.run(sheet, &state_bytes(&run.0), run.1)
        });
        right
            && list.clone().is_none_or(|mut list| {
                match time {
                    0 => {}
                    1 => list = (doubled(&list.0), doubled(&list.1)),
                    _ => spoil_list(rng, sheet[3], &mut list),
                }
                checked.list(sheet, &state_bytes(&list.0), &word_bytes(&list.1))
            })
    })
}

fn doubled<T: Copy>(numbers: &[T]) -> Vec<T> {
    numbers.iter().flat_map(|&number| [number, number]).collect()
}

/// 24 letters: every state has 2^24 next states, and as many may come first, or just one.
fn hostile(checked: &mut Checked) -> bool {
    let states: Vec<State> = (0..4000).map(|number| 2 * number).collect();
    let words = vec![33; states.len()];
    let many = Draft::new(24).promise(1).clone();
    let mut one = many.clone();
    one.first.extend((1..=24).map(|letter| vec![-letter]));
    [many, one].iter().all(|draft| {
        let sheet = draft.bytes();
        checked.list(&sheet, &state_bytes(&states), &word_bytes(&words)) && checked.run(&sheet, &state_bytes(&states), 0)
    })
}
