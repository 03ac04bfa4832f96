//! The audit: random logs, cut at random, on accounts that audits made and on accounts of anything.

use crate::{differs, Tally};
use naxxurbi_calls::State;
use plain::audit::{Account, MOMENTS, NUMBERS, PAST, TALLIES};
use plain::make::{damage, random_sheet, Rng, DAMAGES};
use plain::rules::Rules;

/// A log that mostly obeys: each state is a lawful next one where one is found soon, else anything; now and then it stands still.
fn log(rng: &mut Rng, sheet: &[u8], length: usize) -> Vec<State> {
    let rules = plain::sheet::read(sheet).ok().map(|sheet| Rules::new(&sheet));
    let letters = rules.as_ref().map_or(8, Rules::letters);
    let mut states: Vec<State> = Vec::new();
    for _ in 0..length {
        let mut state = rng.number() as State & ((1 << letters) - 1);
        for _ in 0..64 {
            let fits = rules.as_ref().is_none_or(|rules| states.last().map_or(rules.first(state), |&last| rules.moves(last, state)));
            if fits {
                break;
            }
            state = rng.number() as State & ((1 << letters) - 1);
        }
        states.push(match rng.below(40) {
            0 => state | 1 << rng.within(letters as usize, 31),
            1 => rng.number() as u32 as State,
            2 => states.last().copied().unwrap_or(state),
            _ => state,
        });
        if rng.once_in(8) {
            let still = rng.within(1, 12);
            states.extend(states.last().copied().into_iter().cycle().take(still));
        }
    }
    states
}

/// A number near a bound that matters, or any number.
fn near(rng: &mut Rng) -> u32 {
    *rng.pick(&[0, 1, 2, 3, 4, 255, MOMENTS - 1, MOMENTS, MOMENTS + 1, u32::MAX])
}

/// An account of anything, more or less within bounds.
fn made_up(rng: &mut Rng) -> [u32; NUMBERS] {
    let mut account = Account::new().numbers();
    for number in account.iter_mut().take(5) {
        *number = if rng.once_in(2) { near(rng) } else { rng.number() as u32 >> rng.within(0, 31) };
    }
    if rng.once_in(2) {
        account[0] = rng.below(MOMENTS as usize + 1) as u32;
    }
    for _ in 0..rng.below(4) {
        let at = 5 + rng.below(2 * TALLIES);
        account[at] = if rng.once_in(2) { MOMENTS } else { near(rng) };
    }
    if rng.once_in(2) {
        for number in account.iter_mut().skip(5) {
            *number = rng.below(MOMENTS as usize + 1) as u32;
        }
    }
    account
}

/// What occurred: the answers, and the kinds of first breach.
struct Seen {
    answers: Tally,
    breaches: [u64; 4],
}

impl Seen {
    /// One call of each: whether both answer the same and leave the same account.
    fn same(&mut self, sheet: &[u8], account: &mut [u32; NUMBERS], states: &[State]) -> bool {
        let (before, mut plain) = (*account, Account::of_numbers(account));
        let answer = plain::audit::audit(sheet, &mut plain, states);
        let ours = (naxxurbi_calls::audit(sheet, account, states), account.to_vec());
        self.answers.count(answer);
        if answer == 0 && before[2] == 0 {
            self.breaches[plain.what as usize] += 1;
        }
        let refused = answer == 0 || plain.numbers() == before;
        refused && !differs("audit", sheet, &ours, &(answer, plain.numbers().to_vec()))
    }

    /// A whole log from the empty account, at once and in pieces: the same account.
    fn cut(&mut self, rng: &mut Rng, sheet: &[u8], states: &[State]) -> bool {
        let mut whole = Account::new().numbers();
        let mut account = whole;
        let mut left = states;
        let mut same = self.same(sheet, &mut whole, states);
        while same && !left.is_empty() {
            let (piece, rest) = left.split_at(rng.within(0, left.len().min(9)));
            same = self.same(sheet, &mut account, piece);
            left = rest;
        }
        same && !differs("audit of a log in pieces", sheet, &account, &whole)
    }
}

pub fn suite(rng: &mut Rng, rounds: usize) -> bool {
    let mut seen = Seen { answers: Tally::new("audit"), breaches: [0; 4] };
    for _ in 0..rounds {
        let sheet = random_sheet(rng, 24);
        let length = rng.below(60);
        let states = log(rng, &sheet, length);
        let mut account = made_up(rng);
        let way = rng.below(DAMAGES);
        let bad = damage(rng, &sheet, way);
        let same = seen.cut(rng, &sheet, &states)
            && seen.same(&sheet, &mut account, &states)
            && seen.same(&sheet, &mut account, &[])
            && seen.same(&bad, &mut account, &states);
        if !same {
            return false;
        }
    }
    let [none, unlawful, first, step] = seen.breaches;
    println!("audit: first breach none {none}, unlawful {unlawful}, first rule {first}, step rule {step}");
    let answers = seen.answers.complete(&[0, 1, 2, 3, 4, 5, 6, 7, 8, 9, 10, PAST as usize]);
    answers && seen.breaches.iter().all(|&times| times > 0)
}
