//! The sample run.

use crate::graph::{Graph, Spot, NONE};
use crate::rules::Rules;
use crate::State;

/// A sample run: the states from moment 0, read on from the last to `back`.
pub(crate) struct Walk {
    pub states: Vec<State>,
    pub back: usize,
}

/// No distance, no moment.
const NEVER: u32 = u32::MAX;

/// Walks from a livable first state through livable states.
pub(crate) fn walk(rules: &Rules, graph: &Graph, live: &[bool], start: Spot) -> Walk {
    let promises = rules.promises();
    let mut aims: Vec<Aim> = match promises {
        0 => vec![Aim::anywhere(graph)],
        _ => (0..promises).map(|promise| Aim::at(rules, graph, live, promise)).collect(),
    };
    // For each aim and state, the moment at which they were arrived at.
    let mut arrived = vec![NEVER; aims.len() * graph.states.len()];
    let mut states = Vec::new();
    let (mut aim, mut here) = (0, start);
    loop {
        let moment = &mut arrived[aim * graph.states.len() + usize::from(here)];
        if *moment != NEVER {
            return Walk { states, back: *moment as usize };
        }
        *moment = states.len() as u32;
        let state = graph.states[usize::from(here)];
        states.push(state);
        if promises > 0 && rules.kept(aim, state) {
            aim = (aim + 1) % promises;
        }
        here = aims[aim].next(rules, graph, live, here);
    }
}

/// Where to go when aiming at one promise.
struct Aim {
    /// The promise, unless there are none.
    promise: Option<usize>,
    /// For each class, one more than the least distance of its livable next
    /// states: the distance of its states in which the literal is false.
    distance: Vec<u32>,
    /// For each class the next state to go to, once looked for.
    choice: Vec<Spot>,
}

impl Aim {
    /// With no promises every next state is as good as any other.
    fn anywhere(graph: &Graph) -> Aim {
        let classes = graph.next.len();
        Aim { promise: None, distance: Vec::new(), choice: vec![NONE; classes] }
    }

    /// Measures the distances to a promise, breadth first and backwards, from
    /// the livable states in which its literal is true.
    fn at(rules: &Rules, graph: &Graph, live: &[bool], promise: usize) -> Aim {
        let classes = graph.next.len();
        let mut distance = vec![NEVER; classes];
        let kept = |spot: Spot| rules.kept(promise, graph.states[usize::from(spot)]);
        let livable = |spot: Spot| live[usize::from(spot)];
        let all = 0..graph.states.len() as Spot;
        let mut level: Vec<Spot> = all.filter(|&spot| livable(spot) && kept(spot)).collect();
        let mut moves = 0;
        let mut unmeasured = classes;
        while !level.is_empty() {
            moves += 1;
            let mut farther = Vec::new();
            for &spot in &level {
                // With many moves, all classes are soon measured.
                if unmeasured == 0 {
                    break;
                }
                for &class in graph.back.row(spot) {
                    let distance = &mut distance[usize::from(class)];
                    if *distance == NEVER {
                        *distance = moves;
                        unmeasured -= 1;
                        let members = graph.members.row(class).iter().copied();
                        farther.extend(members.filter(|&spot| livable(spot) && !kept(spot)));
                    }
                }
            }
            level = farther;
        }
        Aim { promise: Some(promise), distance, choice: vec![NONE; classes] }
    }

    /// The livable next state at the least distance, the least among equals.
    fn next(&mut self, rules: &Rules, graph: &Graph, live: &[bool], here: Spot) -> Spot {
        let class = graph.class[usize::from(here)];
        let choice = self.choice[usize::from(class)];
        if choice != NONE {
            return choice;
        }
        let least = |&spot: &Spot| {
            live[usize::from(spot)]
                && self.promise.is_none_or(|promise| {
                    let left = match rules.kept(promise, graph.states[usize::from(spot)]) {
                        true => 0,
                        false => self.distance[usize::from(graph.class[usize::from(spot)])],
                    };
                    // A state that cannot get there has distance NEVER.
                    left.checked_add(1) == Some(self.distance[usize::from(class)])
                })
        };
        // A livable state has a livable next state, from which the promise can
        // be met, so there is always one to find.
        let found = graph.next.row(class).iter().copied().find(least);
        debug_assert!(found.is_some(), "a livable state has a livable next state");
        let choice = found.unwrap_or(here);
        self.choice[usize::from(class)] = choice;
        choice
    }
}
