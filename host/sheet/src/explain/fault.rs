//! What stands at the place of a bad sheet's fault: which record, which literal, what is wrong with it. The number and the place are the
//! proved reader's; these words are the command's own.

use crate::story::count;
use plain::sheet::{HEADER, MOST_LETTERS, MOST_LIMITS, MOST_PROMISES};

/// The kinds of records, in the sheet's order; in the header the number of letters stands in byte 3, the counts from byte 4 on.
const KINDS: [&str; 4] = ["limit", "first rule", "step rule", "promise"];
const LIMIT: usize = 0;
const STEP: usize = 2;
const LETTERS: usize = 3;
const COUNTS: usize = 4;

/// A record that a sheet has, or should have.
struct Record {
    kind: usize,
    /// Counted from 1.
    number: usize,
    /// Its length byte.
    at: usize,
}

impl Record {
    fn name(&self) -> String {
        format!("{} {}", KINDS[self.kind], self.number)
    }

    /// The byte of the record this far behind its length byte; 0 where there is none.
    fn byte(&self, bytes: &[u8], behind: usize) -> usize {
        byte_at(bytes, self.at + behind)
    }

    /// The list that a byte of the record stands in: which side of a step rule, and the list's first byte.
    fn list(&self, bytes: &[u8], place: usize) -> (&'static str, usize) {
        let right = self.at + 2 + self.byte(bytes, 1);
        match self.kind {
            LIMIT => ("", self.at + 3),
            STEP if place >= right => (", right side", right),
            STEP => (", left side", self.at + 2),
            _ => ("", self.at + 1),
        }
    }

    /// Why the record has a bad shape.
    fn shape(&self, bytes: &[u8]) -> String {
        let (size, own) = (self.byte(bytes, 0), self.byte(bytes, 1));
        let has = count(size, "byte");
        match self.kind {
            LIMIT if size < 2 => format!("it has {has}, and a limit has at least 2, its kind and its number"),
            LIMIT => format!("its kind is {own}, and only 0 (exactly) and 1 (at most) are kinds"),
            STEP if size < 1 => "it has no bytes, and a step rule has at least 1, the literals of its left side counted".to_string(),
            STEP => format!("its left side is to have {}, and {} left for both sides", count(own, "literal"), are(size - 1, "byte")),
            _ => format!("it has {has}, and a promise has 1, its literal"),
        }
    }
}

/// A byte of the sheet; 0 where there is none.
fn byte_at(bytes: &[u8], at: usize) -> usize {
    bytes.get(at).map_or(0, |&byte| usize::from(byte))
}

/// A number of things that are there.
fn are(number: usize, noun: &str) -> String {
    format!("{} {}", count(number, noun), if number == 1 { "is" } else { "are" })
}

/// The records one after another, as far as the sheet's counts and length bytes tell; the last may begin at or behind the sheet's end.
fn records(bytes: &[u8]) -> Vec<Record> {
    let mut records = Vec::new();
    let mut at = HEADER;
    for kind in 0..KINDS.len() {
        for number in 1..=byte_at(bytes, COUNTS + kind) {
            records.push(Record { kind, number, at });
            let Some(&length) = bytes.get(at) else {
                return records;
            };
            at += 1 + usize::from(length);
        }
    }
    records
}

/// What the fault of this number is about, in one sentence without its full stop.
pub fn account(number: u32, place: usize, bytes: &[u8]) -> String {
    let header = |at: usize| byte_at(bytes, at);
    let length = count(bytes.len(), "byte");
    match number {
        1 => format!("the sheet has {length}"),
        2 => format!("byte 0 states version {}", header(0)),
        3 => format!("bytes 1 and 2 state a length of {}, and the sheet has {length}", count(256 * header(1) + header(2), "byte")),
        4 => format!("byte 3 states {}, and 1 to {MOST_LETTERS} are allowed", count(header(3), "letter")),
        5 if place == COUNTS => format!("byte 4 states {}, and at most {MOST_LIMITS} are allowed", count(header(4), "limit")),
        5 => format!("byte 7 states {}, and at most {MOST_PROMISES} are allowed", count(header(7), "promise")),
        10 => {
            let last = records(bytes).pop().map_or("the header, for the sheet states no records".to_string(), |last| last.name());
            format!("{} left behind {last}", are(bytes.len().saturating_sub(place), "byte"))
        }
        _ => in_record(number, place, bytes),
    }
}

/// The same for the faults of a record: 6 to 9.
fn in_record(number: u32, place: usize, bytes: &[u8]) -> String {
    let Some(record) = records(bytes).into_iter().rfind(|record| record.at <= place) else {
        return format!("byte {place} belongs to no record");
    };
    let name = record.name();
    let left = bytes.len().saturating_sub(record.at + 1);
    match number {
        6 if place >= bytes.len() => format!("{name} is missing: the sheet ends after {}", count(bytes.len(), "byte")),
        6 => format!("{name} goes past the end: its length byte says {}, and {} left", record.byte(bytes, 0), are(left, "byte")),
        7 => format!("{name} has a bad shape: {}", record.shape(bytes)),
        _ => literal(number, &record, place, bytes),
    }
}

/// What is wrong with the literal at a place: 8 or 9.
fn literal(number: u32, record: &Record, place: usize, bytes: &[u8]) -> String {
    let signed = |at: usize| bytes.get(at).map_or(0, |&byte| byte as i8);
    let (side, list) = record.list(bytes, place);
    let which = format!("{}{side}, literal {}", record.name(), place.saturating_sub(list) + 1);
    let found = signed(place);
    match number {
        8 if found == 0 => format!("{which}, is 0, and 0 is no literal"),
        8 => format!("{which}, is {found}, and the sheet has {}", count(byte_at(bytes, LETTERS), "letter")),
        _ => format!("{which}, is {found}, not above {}, the literal before it", signed(place.saturating_sub(1))),
    }
}
