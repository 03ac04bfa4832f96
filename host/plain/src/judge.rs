//! The judge.

use crate::graph::{explore, Graph, Spot, MOST_STATES};
use crate::list::Lister;
use crate::rules::Rules;
use crate::sheet::{self, Sheet};
use crate::strike::{strike, Strikes};
use crate::walk::walk;
use crate::State;

/// The judge's five numbers. Those that the documents do not name are 0.
#[derive(Clone, Copy, Debug, Default, PartialEq, Eq)]
pub struct Answer {
    /// The answer, 0 to 13.
    pub answer: u32,
    /// K for answer 0, R for answer 13.
    pub count: u32,
    /// For answer 0, the moment that the sample run goes back to.
    pub a: u32,
    /// For answers 0 and 12, the moments that the sample run has.
    pub b: u32,
    /// For answers 1 to 10, the byte at fault.
    pub place: u32,
}

/// Judges a sheet.
///
/// A bad sheet leaves the slices alone. Otherwise `words` and `scratch` are
/// zero in full and `run` is unchanged, but for these: answer 0 leaves the
/// livable states in `table` and the sample run in `run`; answer 13 leaves the
/// strike list in `table` and `words`. The rest of `table` is zero.
///
/// This judge keeps its own tables on the heap; it uses `scratch` only for its
/// length, which bounds how many states may be reachable.
pub fn judge(
    sheet: &[u8],
    table: &mut [State],
    words: &mut [u32],
    scratch: &mut [State],
    run: &mut [State],
) -> Answer {
    match sheet::read(sheet) {
        Ok(sheet) => judge_good(&sheet, table, words, scratch, run),
        Err(fault) => {
            let place = fault.place as u32;
            Answer { answer: fault.number, place, ..Answer::default() }
        }
    }
}

/// Judges a sheet that has been read.
pub(crate) fn judge_good(
    sheet: &Sheet,
    table: &mut [State],
    words: &mut [u32],
    scratch: &mut [State],
    run: &mut [State],
) -> Answer {
    let rules = Rules::new(sheet);
    table.fill(0);
    words.fill(0);
    scratch.fill(0);

    let room = table.len().min(words.len()).min(scratch.len() / 2).min(MOST_STATES);
    let Some(graph) = explore(&mut Lister::new(&rules), room) else {
        return Answer { answer: 11, ..Answer::default() };
    };
    let strikes = strike(&rules, &graph);
    match least_livable_first(&rules, &graph, &strikes) {
        Some(start) => can_be_kept(&rules, &graph, &strikes, start, table, run),
        None => cannot_be_kept(&graph, &strikes, table, words),
    }
}

/// What exploring a good sheet comes to.
#[derive(Clone, Copy, Debug, PartialEq, Eq)]
pub struct Explored {
    /// R, unless there are more states than there is room for.
    pub states: Option<usize>,
    /// How many branches the listings of first and next states looked at.
    pub nodes: u64,
}

/// Explores a good sheet's reachable states, up to `most` or 16,384 of them.
pub fn explored(sheet: &[u8], most: usize) -> Option<Explored> {
    let rules = Rules::new(&sheet::read(sheet).ok()?);
    let mut lister = Lister::new(&rules);
    let graph = explore(&mut lister, most.min(MOST_STATES));
    Some(Explored { states: graph.map(|graph| graph.states.len()), nodes: lister.nodes })
}

/// R of a good sheet, unless it is above `most` or 16,384.
pub fn reachable(sheet: &[u8], most: usize) -> Option<usize> {
    explored(sheet, most)?.states
}

/// Where the sample run starts. A livable state occurs in an obeying run, whose
/// start is livable too; so if there is no livable first state, none is livable.
fn least_livable_first(rules: &Rules, graph: &Graph, strikes: &Strikes) -> Option<Spot> {
    let all = 0..graph.states.len();
    let mut livable = all.filter(|&spot| strikes.live[spot]);
    livable.find(|&spot| rules.first(graph.states[spot])).map(|spot| spot as Spot)
}

fn can_be_kept(
    rules: &Rules,
    graph: &Graph,
    strikes: &Strikes,
    start: Spot,
    table: &mut [State],
    run: &mut [State],
) -> Answer {
    let walk = walk(rules, graph, &strikes.live, start);
    let b = walk.states.len() as u32;
    let Some(lent) = run.get_mut(..walk.states.len()) else {
        return Answer { answer: 12, b, ..Answer::default() };
    };
    lent.copy_from_slice(&walk.states);
    let livable = graph.states.iter().zip(&strikes.live).filter(|&(_, &live)| live);
    for (place, (&state, _)) in table.iter_mut().zip(livable) {
        *place = state;
    }
    Answer { answer: 0, count: strikes.left as u32, a: walk.back as u32, b, place: 0 }
}

fn cannot_be_kept(
    graph: &Graph,
    strikes: &Strikes,
    table: &mut [State],
    words: &mut [u32],
) -> Answer {
    debug_assert_eq!(strikes.left, 0);
    for (place, &spot) in table.iter_mut().zip(&strikes.struck) {
        *place = graph.states[usize::from(spot)];
    }
    for (place, &word) in words.iter_mut().zip(&strikes.words) {
        *place = word;
    }
    Answer { answer: 13, count: graph.states.len() as u32, ..Answer::default() }
}
