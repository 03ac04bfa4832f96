//! Which moves are drawn. In a small picture all are; in a larger one so many arrows would hide the states, and a few are chosen: one into
//! each state on a shortest way from a first state, one out of it, and those of the sample run.

use crate::picture::graph::Graph;

/// Up to so many states all moves are drawn, and of more if there are not many.
const MOST_WITH_ALL_MOVES: usize = 16;
const FEW_FOR_EACH: usize = 2;

/// Are there too many states and moves to draw all of these?
pub fn is_thinned(graph: &Graph) -> bool {
    let (states, moves) = (graph.states.len(), graph.moves.iter().map(Vec::len).sum::<usize>());
    states > MOST_WITH_ALL_MOVES && moves > FEW_FOR_EACH * states
}

/// The moves that are drawn, by place; `run` are the sample run's moves.
pub fn drawn(graph: &Graph, run: &[(usize, usize)]) -> Vec<Vec<usize>> {
    if !is_thinned(graph) {
        return graph.moves.clone();
    }
    let mut drawn: Vec<Vec<usize>> = vec![Vec::new(); graph.states.len()];
    run.iter().for_each(|&(from, to)| drawn[from].push(to));
    for place in graph.first..graph.states.len() {
        if !drawn.iter().any(|tos| tos.contains(&place)) {
            let from = finder(graph, &drawn, place);
            from.into_iter().for_each(|from| drawn[from].push(place));
        }
    }
    for place in 0..graph.states.len() {
        if drawn[place].is_empty() {
            drawn[place].extend(way_out(graph, place));
        }
    }
    drawn
}

/// A state one move nearer to a first state; of several the one from which the fewest arrows lead so far, so that they do not all come from
/// one.
fn finder(graph: &Graph, drawn: &[Vec<usize>], place: usize) -> Option<usize> {
    let nearer = |&from: &usize| graph.depth[from] + 1 == graph.depth[place] && graph.moves[from].contains(&place);
    (0..graph.states.len()).filter(nearer).min_by_key(|&from| drawn[from].len())
}

/// The move out of a state that says most: that it can stay, if it is livable and can; else to a livable state; else to the state struck
/// last, for until then there was a way on.
fn way_out(graph: &Graph, place: usize) -> Option<usize> {
    let livable = |to: &usize| graph.words[*to].is_none();
    let moves = &graph.moves[place];
    let stays = moves.contains(&place).then_some(place).filter(livable);
    stays.or_else(|| moves.iter().copied().find(livable)).or_else(|| moves.iter().copied().max_by_key(|&to| graph.words[to]))
}
