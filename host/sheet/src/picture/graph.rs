//! What is drawn: the reachable states, their moves, and which are struck when.

use crate::model::{is_true, Sheet, State};
use crate::paper::REASONS;
use crate::picture::MOST_DRAWN;
use plain::list::{each_first, each_next};
use plain::rules::Rules;
use std::ops::ControlFlow;

/// The reachable states and their moves, by place.
pub struct Graph {
    /// The states, in the order in which they are found.
    pub states: Vec<State>,
    /// The places that each moves to.
    pub moves: Vec<Vec<usize>>,
    /// So many of the states, at the front, are first states.
    pub first: usize,
    /// How many moves each is away from a first state.
    pub depth: Vec<usize>,
    /// The word with which each is struck; none for a livable one.
    pub words: Vec<Option<u32>>,
}

/// The reachable states, unless there are too many to draw.
pub fn explore(sheet: &Sheet, rules: &Rules) -> Option<Graph> {
    let mut graph = Graph { states: Vec::new(), moves: Vec::new(), first: 0, depth: Vec::new(), words: Vec::new() };
    let _ = each_first(rules, |state| graph.place(state, 0).map_or(ControlFlow::Break(()), |_| ControlFlow::Continue(())));
    graph.first = graph.states.len();
    let mut at = 0;
    while at < graph.states.len() && graph.states.len() <= MOST_DRAWN {
        let (state, depth) = (graph.states[at], graph.depth[at] + 1);
        let mut moves = Vec::new();
        let _ = each_next(rules, state, |next| match graph.place(next, depth) {
            None => ControlFlow::Break(()),
            Some(place) => {
                moves.push(place);
                ControlFlow::Continue(())
            }
        });
        graph.moves.push(moves);
        at += 1;
    }
    (graph.states.len() <= MOST_DRAWN).then(|| {
        graph.strike(sheet);
        graph
    })
}

impl Graph {
    /// The state's place, a new one if need be; nothing once there are too many.
    fn place(&mut self, state: State, depth: usize) -> Option<usize> {
        if let Some(place) = self.place_of(state) {
            return Some(place);
        }
        self.states.push(state);
        self.depth.push(depth);
        (self.states.len() <= MOST_DRAWN).then(|| self.states.len() - 1)
    }

    /// The place of a state that was found.
    pub fn place_of(&self, state: State) -> Option<usize> {
        self.states.iter().position(|&other| other == state)
    }

    /// Strikes in rounds, as document 01 says, until a round strikes nothing.
    fn strike(&mut self, sheet: &Sheet) {
        self.words = vec![None; self.states.len()];
        for round in 1.. {
            let before = self.words.iter().flatten().count();
            self.strike_all(REASONS * round, |graph, place| !graph.moves[place].iter().any(|&to| graph.words[to].is_none()));
            for (at, &literal) in sheet.promises.iter().enumerate() {
                let helped = self.helped(|state| is_true(literal, state));
                self.strike_all(REASONS * round + at as u32 + 1, |_, place| !helped[place]);
            }
            if self.words.iter().flatten().count() == before {
                return;
            }
        }
    }

    /// Strikes together all unstruck states that are lost.
    fn strike_all(&mut self, word: u32, lost: impl Fn(&Graph, usize) -> bool) {
        let gone: Vec<usize> = (0..self.states.len()).filter(|&place| self.words[place].is_none() && lost(self, place)).collect();
        gone.into_iter().for_each(|place| self.words[place] = Some(word));
    }

    /// From which unstruck states a path of unstruck states meets the literal.
    fn helped(&self, kept: impl Fn(State) -> bool) -> Vec<bool> {
        let live = |place: usize| self.words[place].is_none();
        let mut helped: Vec<bool> = (0..self.states.len()).map(|place| live(place) && kept(self.states[place])).collect();
        loop {
            let more: Vec<usize> = (0..self.states.len())
                .filter(|&place| live(place) && !helped[place] && self.moves[place].iter().any(|&to| helped[to]))
                .collect();
            if more.is_empty() {
                return helped;
            }
            more.into_iter().for_each(|place| helped[place] = true);
        }
    }
}
