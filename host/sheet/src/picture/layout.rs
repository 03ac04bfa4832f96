//! Where each state stands: columns by the number of moves from a first state, long rows of columns folded.

use crate::picture::graph::Graph;

/// More states than this in one column are parted.
const MOST_HIGH: usize = 6;
/// More columns than this are folded.
const MOST_WIDE: usize = 7;

/// A box's middle and its size.
#[derive(Clone, Copy, Debug)]
pub struct Spot {
    /// The middle, from the left.
    pub x: f64,
    /// The middle, from the top.
    pub y: f64,
    /// The box's width.
    pub width: f64,
    /// The box's height.
    pub height: f64,
}

/// Gaps between boxes, wide enough for arrows.
const GAP: (f64, f64) = (110.0, 72.0);

/// A box for each state, all of one size; so that the moves that are drawn cross little.
pub fn lay_out(graph: &Graph, drawn: &[Vec<usize>], width: f64, height: f64) -> Vec<Spot> {
    let columns = columns(graph, drawn);
    let mut spots = vec![Spot { x: 0.0, y: 0.0, width, height }; graph.states.len()];
    let mut top = 0.0;
    for (turn, band) in columns.chunks(MOST_WIDE).enumerate() {
        let highest = band.iter().map(Vec::len).max().unwrap_or(0);
        let all = highest as f64 * (height + GAP.1) - GAP.1;
        for (at, column) in band.iter().enumerate() {
            // Every other band runs back, so that a chain turns at its end.
            let across = if turn % 2 == 0 { at } else { columns.len().min(MOST_WIDE) - 1 - at };
            let own = column.len() as f64 * (height + GAP.1) - GAP.1;
            // A lower column stands in the middle of its band.
            for (down, &place) in column.iter().enumerate() {
                let spot = &mut spots[place];
                spot.x = across as f64 * (width + GAP.0) + width / 2.0;
                spot.y = top + (all - own) / 2.0 + down as f64 * (height + GAP.1) + height / 2.0;
            }
        }
        top += all + 1.6 * GAP.1;
    }
    spots
}

/// The states by their depth, each column put in an order in which arrows cross little, long ones parted.
fn columns(graph: &Graph, drawn: &[Vec<usize>]) -> Vec<Vec<usize>> {
    let deepest = graph.depth.iter().copied().max().unwrap_or(0);
    let mut layers: Vec<Vec<usize>> =
        (0..=deepest).map(|depth| (0..graph.states.len()).filter(|&place| graph.depth[place] == depth).collect()).collect();
    for _ in 0..4 {
        for at in 1..layers.len() {
            let (before, here) = layers.split_at_mut(at);
            sort_by_neighbours(&mut here[0], &before[at - 1], |one, other| drawn[other].contains(&one));
        }
        for at in (1..layers.len()).rev() {
            let (before, after) = layers.split_at_mut(at);
            sort_by_neighbours(&mut before[at - 1], &after[0], |one, other| drawn[one].contains(&other));
        }
    }
    layers.iter().flat_map(|layer| parted(layer)).collect()
}

/// A layer as columns of about the same length.
fn parted(layer: &[usize]) -> Vec<Vec<usize>> {
    let columns = layer.len().div_ceil(MOST_HIGH).max(1);
    layer.chunks(layer.len().div_ceil(columns).max(1)).map(<[usize]>::to_vec).collect()
}

/// Puts a layer in the order of the middle of each member's neighbours in the layer beside it.
fn sort_by_neighbours(layer: &mut [usize], beside: &[usize], joined: impl Fn(usize, usize) -> bool) {
    let middle = |one: usize, own: usize| {
        let places: Vec<usize> = (0..beside.len()).filter(|&at| joined(one, beside[at])).collect();
        match places.len() {
            0 => own as f64,
            many => places.iter().sum::<usize>() as f64 / many as f64,
        }
    };
    let mut keyed: Vec<(f64, usize)> = layer.iter().enumerate().map(|(own, &one)| (middle(one, own), one)).collect();
    keyed.sort_by(|one, other| one.0.total_cmp(&other.0));
    layer.iter_mut().zip(keyed).for_each(|(place, (_, one))| *place = one);
}
