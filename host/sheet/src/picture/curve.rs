//! Arrows between boxes: bent so that they pass other boxes by.

use crate::picture::layout::Spot;

/// How far an arrow's middle may be bent aside, in the order in which bends are tried.
const BENDS: [f64; 12] = [24.0, 45.0, 70.0, 95.0, 120.0, 145.0, 170.0, 200.0, 240.0, 290.0, 350.0, 420.0];
/// So many points of an arrow are held against the boxes.
const POINTS: usize = 24;
/// Arrows keep so far away from boxes that they pass.
const MARGIN: f64 = 6.0;

/// A place, from the left and from the top.
pub type Point = (f64, f64);

/// An arrow as SVG writes its path, and the corners of the room that it takes.
pub struct Arrow {
    /// The path.
    pub path: String,
    /// The upper left corner.
    pub low: Point,
    /// The lower right corner.
    pub high: Point,
}

/// An arrow for the move from one box to another; one with an opposite keeps to its own side.
pub fn arrow(spots: &[Spot], moves: &[Vec<usize>], from: usize, to: usize) -> Arrow {
    if from == to {
        return round_trip(&spots[from], quiet_side(spots, moves, from));
    }
    let opposite = moves[to].contains(&from);
    let (start, end) = ((spots[from].x, spots[from].y), (spots[to].x, spots[to].y));
    // A short arrow is not bent into a wide one; rather it passes behind a box.
    let most = 60.0 + 0.45 * (end.0 - start.0).hypot(end.1 - start.1);
    let free = |&bend: &f64| bend.abs() <= most && passes(spots, from, to, start, aside(start, end, bend), end);
    let bend = if opposite {
        BENDS.into_iter().find(free).unwrap_or(BENDS[0])
    } else {
        let both_sides = BENDS.into_iter().flat_map(|bend| [bend, -bend]);
        [0.0].into_iter().chain(both_sides).find(free).unwrap_or(0.0)
    };
    let middle = aside(start, end, bend);
    let (a, b) = (edge(&spots[from], start, middle, end, false), edge(&spots[to], start, middle, end, true));
    let path = format!("M{:.1} {:.1}Q{:.1} {:.1} {:.1} {:.1}", a.0, a.1, middle.0, middle.1, b.0, b.1);
    let points: Vec<Point> = (0..=POINTS).map(|i| at(a, middle, b, i as f64 / POINTS as f64)).collect();
    let corner = |pick: fn(f64, f64) -> f64| points.iter().fold(a, |so_far, point| (pick(so_far.0, point.0), pick(so_far.1, point.1)));
    Arrow { path, low: corner(f64::min), high: corner(f64::max) }
}

/// A side of a box.
#[derive(Clone, Copy, PartialEq, Eq)]
enum Side {
    Top,
    Bottom,
    Right,
    Left,
}

/// The side of a box, not the left one, at which the fewest arrows come and go.
fn quiet_side(spots: &[Spot], moves: &[Vec<usize>], place: usize) -> Side {
    let joined = (0..spots.len()).filter(|&other| other != place && (moves[place].contains(&other) || moves[other].contains(&place)));
    let sides: Vec<Side> = joined.map(|other| towards(&spots[place], &spots[other])).collect();
    let arrows = |side: &Side| sides.iter().filter(|&other| other == side).count();
    [Side::Top, Side::Bottom, Side::Right].into_iter().min_by_key(arrows).unwrap_or(Side::Top)
}

/// The side at which a straight line to another box leaves.
fn towards(spot: &Spot, other: &Spot) -> Side {
    let (dx, dy) = ((other.x - spot.x) / spot.width, (other.y - spot.y) / spot.height);
    match (dx.abs() > dy.abs(), dx > 0.0, dy > 0.0) {
        (true, true, _) => Side::Right,
        (true, false, _) => Side::Left,
        (false, _, true) => Side::Bottom,
        (false, _, false) => Side::Top,
    }
}

/// An arrow from a box to itself, at this side.
fn round_trip(spot: &Spot, side: Side) -> Arrow {
    let (right, half) = (spot.x + spot.width / 2.0, spot.height / 2.0);
    if side == Side::Right {
        let (leave, come, over) = (spot.y + 14.0, spot.y - 14.0, right + 44.0);
        let path = format!("M{right:.1} {leave:.1}C{over:.1} {:.1} {over:.1} {:.1} {right:.1} {come:.1}", leave + 14.0, come - 14.0);
        return Arrow { path, low: (right, come - 10.0), high: (over - 8.0, leave + 10.0) };
    }
    let up = if side == Side::Bottom { -1.0 } else { 1.0 };
    let (leave, come, edge, over) = (spot.x - 14.0, spot.x + 14.0, spot.y - up * half, spot.y - up * (half + 44.0));
    let path = format!("M{leave:.1} {edge:.1}C{:.1} {over:.1} {:.1} {over:.1} {come:.1} {edge:.1}", leave - 14.0, come + 14.0);
    Arrow { path, low: (leave - 10.0, edge.min(over) + 8.0), high: (come + 10.0, edge.max(over)) }
}

/// The bent arrow's middle point of control.
fn aside(start: Point, end: Point, bend: f64) -> Point {
    let (dx, dy) = (end.0 - start.0, end.1 - start.1);
    let length = dx.hypot(dy).max(1.0);
    ((start.0 + end.0) / 2.0 + dy / length * bend * 2.0, (start.1 + end.1) / 2.0 - dx / length * bend * 2.0)
}

/// The point of the bent way at a share of it.
fn at(start: Point, middle: Point, end: Point, share: f64) -> Point {
    let rest = 1.0 - share;
    let mix = |a: f64, b: f64, c: f64| rest * rest * a + 2.0 * rest * share * b + share * share * c;
    (mix(start.0, middle.0, end.0), mix(start.1, middle.1, end.1))
}

/// Is the point in the box or close to it?
fn inside(spot: &Spot, point: Point, margin: f64) -> bool {
    (point.0 - spot.x).abs() <= spot.width / 2.0 + margin && (point.1 - spot.y).abs() <= spot.height / 2.0 + margin
}

/// Does the way keep clear of all other boxes?
fn passes(spots: &[Spot], from: usize, to: usize, start: Point, middle: Point, end: Point) -> bool {
    let points: Vec<Point> = (0..=POINTS).map(|i| at(start, middle, end, i as f64 / POINTS as f64)).collect();
    let others = spots.iter().enumerate().filter(|&(place, _)| place != from && place != to);
    others.into_iter().all(|(_, spot)| points.iter().all(|&point| !inside(spot, point, MARGIN)))
}

/// Where the way leaves a box at its start, or comes to one at its end.
fn edge(spot: &Spot, start: Point, middle: Point, end: Point, coming: bool) -> Point {
    let share = |part: f64| if coming { 1.0 - part } else { part };
    let (mut near, mut far) = (0.0, 1.0);
    for _ in 0..30 {
        let half = (near + far) / 2.0;
        if inside(spot, at(start, middle, end, share(half)), 0.0) {
            near = half;
        } else {
            far = half;
        }
    }
    at(start, middle, end, share(far))
}
