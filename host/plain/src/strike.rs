//! Striking, round by round.
//!
//! Nothing is worked out twice. For reason 0 each class counts its unstruck
//! next states. For each promise, each class keeps a witness: an unstruck next
//! state from which the promise's literal can be met. Only classes whose chain
//! of witnesses was cut by a strike are looked at again.

use crate::graph::{Graph, Spot, NONE};
use crate::rules::Rules;

/// What striking leaves.
pub(crate) struct Strikes {
    /// For each state, is it unstruck at the end?
    pub live: Vec<bool>,
    /// How many are.
    pub left: usize,
    /// The struck states in the strike list's order.
    pub struck: Vec<Spot>,
    /// Their words.
    pub words: Vec<u32>,
}

/// Strikes until a round strikes nothing or none are left.
pub(crate) fn strike(rules: &Rules, graph: &Graph) -> Strikes {
    let mut board = Board::new(graph);
    let mut watches: Vec<Watch> =
        (0..rules.promises()).map(|promise| Watch::new(promise, graph)).collect();
    let mut round = 0;
    while board.left > 0 {
        round += 1;
        let before = board.left;
        let stuck = board.stuck_states();
        board.strike(stuck, 32 * round);
        for (watch, reason) in watches.iter_mut().zip(1..) {
            let helpless = watch.helpless_states(rules, &board);
            board.strike(helpless, 32 * round + reason);
            // Those were nobody's witness for this promise.
            watch.seen = board.struck.len();
        }
        if board.left == before {
            break;
        }
    }
    Strikes { live: board.live, left: board.left, struck: board.struck, words: board.words }
}

/// The states as they stand.
struct Board<'g> {
    graph: &'g Graph,
    live: Vec<bool>,
    left: usize,
    /// For each class, how many of its next states are unstruck.
    ways_on: Vec<usize>,
    /// Classes whose last way on has gone since the last pass of reason 0.
    stuck: Vec<Spot>,
    struck: Vec<Spot>,
    words: Vec<u32>,
}

impl<'g> Board<'g> {
    fn new(graph: &'g Graph) -> Board<'g> {
        let classes = 0..graph.next.len() as Spot;
        let ways_on: Vec<usize> =
            classes.clone().map(|class| graph.next.row(class).len()).collect();
        Board {
            graph,
            live: vec![true; graph.states.len()],
            left: graph.states.len(),
            stuck: classes.filter(|&class| ways_on[usize::from(class)] == 0).collect(),
            ways_on,
            struck: Vec::new(),
            words: Vec::new(),
        }
    }

    fn is_live(&self, spot: Spot) -> bool {
        self.live[usize::from(spot)]
    }

    /// The unstruck states with no move to an unstruck state.
    fn stuck_states(&mut self) -> Vec<Spot> {
        let mut states = Vec::new();
        for class in std::mem::take(&mut self.stuck) {
            let members = self.graph.members.row(class).iter();
            states.extend(members.filter(|&&spot| self.is_live(spot)));
        }
        states
    }

    /// Strikes these unstruck states together.
    fn strike(&mut self, mut states: Vec<Spot>, word: u32) {
        states.sort_unstable();
        for spot in states {
            debug_assert!(self.is_live(spot));
            self.live[usize::from(spot)] = false;
            self.left -= 1;
            self.struck.push(spot);
            self.words.push(word);
            for &class in self.graph.back.row(spot) {
                let ways_on = &mut self.ways_on[usize::from(class)];
                *ways_on -= 1;
                if *ways_on == 0 {
                    self.stuck.push(class);
                }
            }
        }
    }
}

/// One promise's witnesses.
///
/// A state is *helped* when it is unstruck and the literal is true in it or its
/// class has a witness. Every witness is helped, and from witness to witness
/// one comes to a state where the literal is true. Between turns a class has a
/// witness exactly if it has a helped next state.
struct Watch {
    promise: usize,
    /// For each class its witness, or `NONE`.
    witness: Vec<Spot>,
    /// How many classes have none.
    without: usize,
    /// How many of the board's struck states have been taken into account.
    seen: usize,
    /// Classes to look at in this turn; in the first turn, all.
    lost: Vec<Spot>,
}

impl Watch {
    fn new(promise: usize, graph: &Graph) -> Watch {
        let classes = graph.next.len();
        Watch {
            promise,
            witness: vec![NONE; classes],
            without: classes,
            seen: 0,
            lost: (0..classes as Spot).collect(),
        }
    }

    /// The unstruck states from which no path of unstruck states meets the
    /// literal.
    fn helpless_states(&mut self, rules: &Rules, board: &Board<'_>) -> Vec<Spot> {
        self.drop_witnesses(rules, board);
        self.find_witnesses(rules, board);
        let mut states = Vec::new();
        for class in std::mem::take(&mut self.lost) {
            if self.witness[usize::from(class)] == NONE {
                states.extend(self.leaning(rules, board, class));
            }
        }
        states
    }

    /// The class's unstruck states in which the literal is false: those that
    /// need the class's witness.
    fn leaning<'a>(
        &self,
        rules: &'a Rules,
        board: &'a Board<'a>,
        class: Spot,
    ) -> impl Iterator<Item = Spot> + 'a {
        let promise = self.promise;
        board.graph.members.row(class).iter().copied().filter(move |&spot| {
            board.is_live(spot) && !rules.kept(promise, board.graph.states[usize::from(spot)])
        })
    }

    /// Takes the witness from each class whose chain of witnesses leads through
    /// a state struck since the last turn, and notes the class as lost.
    fn drop_witnesses(&mut self, rules: &Rules, board: &Board<'_>) {
        let mut gone: Vec<Spot> = board.struck[self.seen..].to_vec();
        while let Some(spot) = gone.pop() {
            for &class in board.graph.back.row(spot) {
                let witness = &mut self.witness[usize::from(class)];
                if *witness == spot {
                    *witness = NONE;
                    self.without += 1;
                    self.lost.push(class);
                    gone.extend(self.leaning(rules, board, class));
                }
            }
        }
    }

    /// Gives lost classes a new witness where there is one. A class found is
    /// followed backwards at once, so that each move is looked at twice at most.
    fn find_witnesses(&mut self, rules: &Rules, board: &Board<'_>) {
        let graph = board.graph;
        let mut found = Vec::new();
        for &class in &self.lost {
            if self.witness[usize::from(class)] != NONE {
                continue;
            }
            let helped = |&&spot: &&Spot| {
                board.is_live(spot)
                    && (rules.kept(self.promise, graph.states[usize::from(spot)])
                        || self.witness[usize::from(graph.class[usize::from(spot)])] != NONE)
            };
            let Some(&spot) = graph.next.row(class).iter().find(helped) else {
                continue;
            };
            self.witness[usize::from(class)] = spot;
            self.without -= 1;
            found.push(class);
            while let Some(class) = found.pop() {
                for spot in self.leaning(rules, board, class) {
                    // With many moves, all classes are soon provided for.
                    if self.without == 0 {
                        return;
                    }
                    for &before in graph.back.row(spot) {
                        let witness = &mut self.witness[usize::from(before)];
                        if *witness == NONE {
                            *witness = spot;
                            self.without -= 1;
                            found.push(before);
                        }
                    }
                }
            }
        }
    }
}
