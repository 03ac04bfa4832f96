//! The judge: numbers and all four slices compared whole, and every paper handed to both checkers.

use crate::{boundary_sheets, differs, Places, Tally};
use naxxurbi_calls::{check_run, check_strikes, state_bytes, word_bytes, State};
use plain::brute::Outcome;
use plain::edges::edges;
use plain::judge::{reachable, Answer};
use plain::lent::Lent;
use plain::make::{self, damage, letters, random_draft, Rng, DAMAGES};
use plain::source;

/// The most reachable states of a random sheet that is judged to its end; of more, only how many there is room for matters.
const MOST_STATES: usize = 400;

/// A judge, ours or the plain one.
pub type Judge = fn(&[u8], &mut [State], &mut [u32], &mut [State], &mut [State]) -> Answer;

/// Judges with slices like these.
pub fn judged(judge: Judge, sheet: &[u8], lent: &Lent) -> Outcome {
    let Lent { mut table, mut words, mut scratch, mut run } = lent.clone();
    let answer = judge(sheet, &mut table, &mut words, &mut scratch, &mut run);
    Outcome { answer, table, words, scratch, run }
}

/// What was answered, and where the faults were.
pub struct Seen {
    pub tally: Tally,
    pub places: Places,
}

impl Seen {
    pub fn new(name: &'static str) -> Seen {
        Seen { tally: Tally::new(name), places: Places::new(name) }
    }
}

/// Judges with both, compares them, and hands the paper to both checkers: the right one accepts it, the other does not.
pub fn agree(seen: &mut Seen, sheet: &[u8], lent: &Lent) -> bool {
    let ours = judged(compare::judge, sheet, lent);
    let plain = judged(plain::judge::judge, sheet, lent);
    if differs("judge", sheet, &ours, &plain) {
        println!("  lent {:?}", lent.lengths());
        return false;
    }
    let Answer { answer, count, a, b, place } = ours.answer;
    seen.tally.count(answer);
    seen.places.keep(answer, place);
    let (count, b) = (count as usize, b as usize);
    let (numbers, wanted) = match answer {
        0 => {
            let (run, livable) = (state_bytes(&ours.run[..b]), state_bytes(&ours.table[..count]));
            ([check_run(sheet, &run, a), check_strikes(sheet, &livable, &word_bytes(&ours.words[..count]))], [0, 14])
        }
        13 => {
            let (states, words) = (state_bytes(&ours.table[..count]), word_bytes(&ours.words[..count]));
            ([check_run(sheet, &states, 0), check_strikes(sheet, &states, &words)], [14, 0])
        }
        _ => return true,
    };
    seen.tally.count(14);
    !differs("a checker on the judge's paper", sheet, &numbers, &wanted)
}

/// A length for what needs so much: none, one, one short, exactly, or more.
fn length(rng: &mut Rng, need: usize) -> usize {
    match rng.below(16) {
        0 => 0,
        1 => 1,
        2 => need.saturating_sub(1),
        3..=9 => need,
        10 => need + 1,
        _ => need + rng.below(20),
    }
}

/// A good sheet, several times over with other slices.
pub fn good(rng: &mut Rng, seen: &mut Seen, sheet: &[u8]) -> bool {
    // Where there are too many states, any need below serves to show that.
    let states = reachable(sheet, MOST_STATES).unwrap_or(rng.clone().below(MOST_STATES));
    let free = Lent::all(0, [states, states, 2 * states, 16 * states]);
    let moments = judged(plain::judge::judge, sheet, &free).answer.b as usize;
    (0..4).all(|_| {
        let lengths = [length(rng, states), length(rng, states), length(rng, 2 * states), length(rng, moments)];
        let lent = Lent::filled(rng, lengths);
        agree(seen, sheet, &lent)
    })
}

/// Any sheet, with slices of a few numbers.
fn any(rng: &mut Rng, seen: &mut Seen, sheet: &[u8]) -> bool {
    let lengths = [0; 4].map(|_: usize| rng.below(20));
    let lent = Lent::filled(rng, lengths);
    agree(seen, sheet, &lent)
}

pub fn suite(rng: &mut Rng, rounds: usize) -> bool {
    let mut seen = Seen::new("judge and checkers");
    if !edges().iter().all(|edge| any(rng, &mut seen, &edge.sheet)) {
        return false;
    }
    for round in 0..3 * rounds {
        if round % 64 == 0 && !boundary_sheets(rng).iter().all(|sheet| any(rng, &mut seen, sheet)) {
            return false;
        }
        let letters = letters(rng);
        let sheet = random_draft(rng, letters).bytes();
        if !good(rng, &mut seen, &sheet) {
            return false;
        }
        for _ in 0..3 {
            let way = rng.below(DAMAGES);
            let damaged = damage(rng, &sheet, way);
            if !any(rng, &mut seen, &damaged) {
                return false;
            }
        }
    }
    let all = seen.tally.complete(&[0, 1, 2, 3, 4, 5, 6, 7, 8, 9, 10, 11, 12, 13, 14]);
    seen.places.complete() && all
}

/// Sheets with many states, long runs and many rounds; those of source document 000; and 16,384 states, and more, with room for more.
pub fn large(rng: &mut Rng, _: usize) -> bool {
    let mut seen = Seen::new("large sheets");
    let mut sheets: Vec<Vec<u8>> = source::families().into_iter().map(|family| family.sheet).collect();
    let drafts = [
        make::w15(),
        make::exactly(20, 2),
        make::free(8),
        make::dense(8),
        make::counter(9),
        make::counter_to_dead_end(8),
        make::falling_promises(4),
        make::long_run(7, 16),
        make::long_run(9, 5),
        make::counter_to_dead_end(10),
        make::falling_promises(6),
    ];
    sheets.extend(drafts.iter().map(|draft| draft.bytes()));
    // Many states with few next states each: these the judge stores the moves of.
    sheets.extend((0..48).map(|_| make::loosened_counter(rng, 10).bytes()));
    for sheet in &sheets {
        let lent = Lent::filled(rng, [1100, 1100, 2200, 4096]);
        if !agree(&mut seen, sheet, &lent) || !good(rng, &mut seen, sheet) {
            return false;
        }
    }
    // Exactly 16,384 states, then twice as many, for which there would be room.
    for (draft, lengths) in [(make::counter(14), [16_385, 16_500, 40_000, 16_384]), (make::counter(15), [33_000, 33_000, 66_000, 40_000])] {
        let lent = Lent::filled(rng, lengths);
        if !agree(&mut seen, &draft.bytes(), &lent) {
            return false;
        }
    }
    seen.tally.complete(&[0, 11, 12, 13, 14])
}
