//! Counting the true literals of a limit, as it was done before order 3 and as it is done now. The proved library has one of the two at a time, so
//! both leaves stand here in plain Rust: ours is the new one, written as `crates/rules/src/tally.rt` has it; the other is the old one.

use crate::{measure, Only, Table, LONG};
use naxxurbi_calls::State;
use plain::make::Rng;
use std::hint::black_box;

/// The letters to hold and not to hold, and the most that may be true.
type Limit = (State, State, u32);

/// Set bits, one by one.
fn ones_before(x: State) -> u32 {
    let (mut left, mut n) = (x, 0);
    while left > 0 {
        left &= left - 1;
        n += 1;
    }
    n
}

/// The leaf before: three counts and a subtraction.
fn count_before(s: State, (held, unheld, _): Limit) -> u32 {
    ones_before(s & held) + (ones_before(unheld) - ones_before(s & unheld))
}

/// The leaf now: two counts, each one operation of the language.
fn count_now(s: State, (held, unheld, _): Limit) -> u32 {
    (s & held).count_ones() + (unheld & !s).count_ones()
}

/// How many states meet all limits.
fn lawful(states: &[State], limits: &[Limit], count: impl Fn(State, Limit) -> u32) -> usize {
    states.iter().filter(|&&s| limits.iter().all(|&limit| count(s, limit) <= limit.2)).count()
}

/// 32 limits over 24 letters that hardly a state breaks, and 4,096 states at random: all limits are counted for nearly all of them.
pub fn table(only: &Only) -> Table {
    let rng = &mut Rng::new(3);
    let mut letters = || rng.number() as State & 0xFF_FFFF;
    let limits: Vec<Limit> = (0..32).map(|_| (letters(), letters(), 20)).collect();
    let states: Vec<State> = (0..4096).map(|_| letters()).collect();
    let name = "counting: 32 limits over 24 letters, two counts beside three".to_string();
    let rows = if only.wants(&name) {
        let now = || lawful(black_box(&states), black_box(&limits), count_now);
        let before = || lawful(black_box(&states), black_box(&limits), count_before);
        vec![measure(name, vec![states.len().to_string()], LONG, now, before)]
    } else {
        Vec::new()
    };
    Table { title: "Counting literals: now beside before, both in plain Rust", heads: &["states"], rows }
}
