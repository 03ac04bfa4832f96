//! Sheets that have each fault at its first and at its last possible place, for
//! every kind of record that can have it. The places are reckoned from order 1's
//! words; no reader is asked.

use crate::make::with_length;
use crate::sheet::{HEADER, MOST_BYTES, MOST_LETTERS};

/// Each fault's number, its first possible place and its last.
///
/// 8 and 9 stand behind a length byte, 9 behind another literal as well. A sheet
/// of 4,096 bytes can miss a record at byte 4,096 and can have any other fault of
/// a record in its last byte.
pub const PLACES: [(u32, usize, usize); 10] = [
    (1, 0, 0),
    (2, 0, 0),
    (3, 1, 1),
    (4, 3, 3),
    (5, 4, 7),
    (6, 8, 4096),
    (7, 8, 4095),
    (8, 9, 4095),
    (9, 10, 4095),
    (10, 8, 4095),
];

/// A sheet with its fault.
#[derive(Clone, Debug)]
pub struct Edge {
    /// What is wrong with it.
    pub what: String,
    /// The fault's number.
    pub number: u32,
    /// The fault's place.
    pub place: usize,
    /// The sheet.
    pub sheet: Vec<u8>,
}

/// The header's byte that counts the records of a kind.
type Kind = usize;

const LIMIT: Kind = 4;
const FIRST: Kind = 5;
const STEP: Kind = 6;
const PROMISE: Kind = 7;

/// What a kind is called.
fn called(kind: Kind) -> &'static str {
    ["limit", "first rule", "step rule", "promise"][kind - LIMIT]
}

/// A literal that names no letter; how many literals a good list can hold.
const NO_LETTER: u8 = MOST_LETTERS + 1;
const ALL: usize = 2 * MOST_LETTERS as usize;

/// The literals -24 to -1, then 1 to 24.
fn all_literals() -> Vec<u8> {
    let most = MOST_LETTERS as i8;
    (-most..=most).filter(|&literal| literal != 0).map(|literal| literal as u8).collect()
}

/// The last length byte that a limit can have: before it 31 limits, each of a
/// length byte, two bytes and 48 literals.
const LAST_LIMIT: usize = HEADER + 31 * (1 + 2 + ALL);

/// A sheet with `tail` in place of a record of this kind at byte `at`. Good
/// records fill up what is before: limits before a limit, else first rules.
fn tail_at(kind: Kind, at: usize, tail: &[u8]) -> Vec<u8> {
    let mut sheet = vec![1, 0, 0, MOST_LETTERS, 0, 0, 0, 0];
    let (filler, own): (Kind, &[u8]) = if kind == LIMIT { (LIMIT, &[0, 0]) } else { (FIRST, &[]) };
    while sheet.len() < at {
        let literals = (at - sheet.len() - 1 - own.len()).min(ALL);
        sheet.push((own.len() + literals) as u8);
        sheet.extend(own);
        sheet.extend(&all_literals()[..literals]);
        sheet[filler] += 1;
    }
    sheet[kind] += 1;
    sheet.extend(tail);
    with_length(sheet)
}

/// All of them.
pub fn edges() -> Vec<Edge> {
    let mut edges = headers();
    for kind in [LIMIT, FIRST, STEP, PROMISE] {
        missing_and_long(kind, &mut edges);
        bad_shapes(kind, &mut edges);
        bad_literals(kind, &mut edges);
    }
    let surplus = |at: usize| {
        let mut sheet = tail_at(FIRST, at, &[0]);
        sheet.push(0);
        with_length(sheet)
    };
    edges.push(Edge::new("a byte and no record", 10, HEADER, vec![1, 0, 9, 1, 0, 0, 0, 0, 0]));
    edges.push(Edge::new(
        "a byte too many at the end",
        10,
        MOST_BYTES - 1,
        surplus(MOST_BYTES - 2),
    ));
    edges
}

impl Edge {
    fn new(what: impl Into<String>, number: u32, place: usize, sheet: Vec<u8>) -> Edge {
        Edge { what: what.into(), number, place, sheet }
    }
}

/// Faults of the header: 1 to 5.
fn headers() -> Vec<Edge> {
    let header = |at: usize, value: u8| {
        let mut sheet = vec![1, 0, 8, 1, 0, 0, 0, 0];
        sheet[at] = value;
        sheet
    };
    let mut both = header(LIMIT, 33);
    both[PROMISE] = 17;
    vec![
        Edge::new("no bytes", 1, 0, Vec::new()),
        Edge::new("7 bytes", 1, 0, vec![1, 0, 7, 1, 0, 0, 0]),
        Edge::new("4,097 bytes", 1, 0, with_length(vec![1; MOST_BYTES + 1])),
        Edge::new("version 0", 2, 0, header(0, 0)),
        Edge::new("version 2", 2, 0, header(0, 2)),
        Edge::new("length's high byte", 3, 1, header(1, 1)),
        Edge::new("length's low byte", 3, 1, header(2, 9)),
        Edge::new("no letters", 4, 3, header(3, 0)),
        Edge::new("25 letters", 4, 3, header(3, 25)),
        Edge::new("33 limits", 5, LIMIT, header(LIMIT, 33)),
        Edge::new("33 limits and 17 promises", 5, LIMIT, both),
        Edge::new("17 promises", 5, PROMISE, header(PROMISE, 17)),
    ]
}

/// Fault 6: no length byte, or one that says more than there is.
fn missing_and_long(kind: Kind, edges: &mut Vec<Edge>) {
    let (missing, long) =
        if kind == LIMIT { (LAST_LIMIT, LAST_LIMIT) } else { (MOST_BYTES, MOST_BYTES - 1) };
    let kind_called = called(kind);
    for at in [HEADER, missing] {
        let what = format!("{kind_called} missing at {at}");
        edges.push(Edge::new(what, 6, at, tail_at(kind, at, &[])));
    }
    for at in [HEADER, long] {
        let what = format!("{kind_called} past the end at {at}");
        edges.push(Edge::new(what, 6, at, tail_at(kind, at, &[1])));
    }
}

/// Fault 7: every bad shape at the first place, no bytes at the last.
fn bad_shapes(kind: Kind, edges: &mut Vec<Edge>) {
    let (shapes, last): (&[&[u8]], usize) = match kind {
        LIMIT => (&[&[0], &[1, 0], &[2, 2, 0]], LAST_LIMIT),
        STEP => (&[&[0], &[1, 1], &[2, 2, 1]], MOST_BYTES - 1),
        PROMISE => (&[&[0], &[2, 1, 2]], MOST_BYTES - 1),
        _ => return,
    };
    let first = shapes.iter().map(|&shape| (HEADER, shape));
    for (at, shape) in first.chain([(last, &[0][..])]) {
        let what = format!("{} {shape:?} at {at}", called(kind));
        edges.push(Edge::new(what, 7, at, tail_at(kind, at, shape)));
    }
}

/// Faults 8 and 9 in each list that a record of this kind has.
fn bad_literals(kind: Kind, edges: &mut Vec<Edge>) {
    // What stands between the length byte and the list of so many literals.
    let own: &[fn(u8) -> Vec<u8>] = match kind {
        LIMIT => &[|_| vec![0, 0]],
        STEP => &[|count| vec![count], |_| vec![0]],
        _ => &[|_| Vec::new()],
    };
    for own in own {
        let record = |list: &[u8]| {
            let own = own(list.len() as u8);
            [vec![(own.len() + list.len()) as u8], own, list.to_vec()].concat()
        };
        let mut at_both_ends = |number: u32, list: &[u8]| {
            let record = record(list);
            let front = HEADER + record.len();
            let ends = if kind == LIMIT { vec![front] } else { vec![front, MOST_BYTES] };
            for end in ends {
                let sheet = tail_at(kind, end - record.len(), &record);
                let what = format!("{} {record:?} that ends at {end}", called(kind));
                edges.push(Edge::new(what, number, end - 1, sheet));
            }
        };
        at_both_ends(8, &[NO_LETTER]);
        if kind != PROMISE {
            at_both_ends(9, &[1, 1]);
        }
        if kind == LIMIT {
            // The 49th literal of the last limit: one more than a good list has.
            for (number, literal) in [(8, NO_LETTER), (9, MOST_LETTERS)] {
                let record = record(&[all_literals(), vec![literal]].concat());
                let sheet = tail_at(kind, LAST_LIMIT, &record);
                edges.push(Edge::new("limit's 49th literal", number, sheet.len() - 1, sheet));
            }
        }
    }
}
