//! The serial lead: sheets whole and damaged, cut at random, some pieces empty; calls after closing; states that no lead made.

use crate::{boundary_sheets, differs, Tally};
use naxxurbi_calls::{serial_close, serial_take};
use plain::make::{damage, random_sheet, Rng, DAMAGES};
use plain::serial::{self as plainly, ROOM};

/// One lead on each side, fed the same.
struct Pair {
    ours: ([u32; 2], [u8; ROOM]),
    plain: ([u32; 2], [u8; ROOM]),
}

impl Pair {
    /// Two leads in one state, with one buffer.
    fn new(state: [u32; 2], fill: u8) -> Pair {
        Pair { ours: (state, [fill; ROOM]), plain: (state, [fill; ROOM]) }
    }

    /// Hands a piece to both; the answer, if they agree on everything.
    fn take(&mut self, piece: &[u8]) -> Option<u32> {
        let ours = serial_take(&mut self.ours.0, &mut self.ours.1, piece);
        let plain = plainly::take(&mut self.plain.0, &mut self.plain.1, piece);
        self.agree("serial take", piece, &[ours], &[plain]).then_some(plain)
    }

    /// Closes both; answer and place, if they agree on everything.
    fn close(&mut self) -> Option<[u32; 2]> {
        let ours = serial_close(&mut self.ours.0, &self.ours.1);
        let plain = plainly::close(&mut self.plain.0, &self.plain.1);
        self.agree("serial close", &[], &ours, &plain).then_some(plain)
    }

    /// Whether both told the same, and left the same state and buffer.
    fn agree(&self, what: &str, piece: &[u8], ours: &[u32], plain: &[u32]) -> bool {
        !differs(what, piece, &(ours, self.ours.0, &self.ours.1), &(plain, self.plain.0, &self.plain.1))
    }
}

/// The ends of the pieces of a random cutting: up to eight pieces, many of them short or empty; now and then byte by byte.
fn ends(rng: &mut Rng, length: usize) -> Vec<usize> {
    if rng.once_in(16) {
        return (1..=length).collect();
    }
    let mut ends: Vec<usize> = (0..rng.below(8)).map(|_| rng.below(length + 1)).collect();
    for _ in 0..rng.below(3) {
        ends.push(*rng.pick(&[0, length, length.min(8), length.min(ROOM)]));
    }
    ends.push(length);
    ends.sort_unstable();
    ends
}

/// A sheet in pieces from a fresh lead: 0 for each, then the reader's answer for the whole; then 18 to every call.
fn whole(rng: &mut Rng, tally: &mut Tally, sheet: &[u8]) -> Option<()> {
    let mut lead = Pair::new([0, 0], rng.byte());
    let mut from = 0;
    for to in ends(rng, sheet.len()) {
        tally.count(lead.take(&sheet[from..to])?);
        from = to;
    }
    let told = lead.close()?;
    tally.count(told[0]);
    let wanted = plain::sheet::read(sheet).map_or_else(|fault| [fault.number, fault.place as u32], |_| [0, 0]);
    let stored = sheet.len().min(ROOM);
    if differs("serial close, the joined bytes", sheet, &told, &wanted)
        || differs("serial buffer", sheet, &lead.ours.1[..stored], &sheet[..stored])
    {
        return None;
    }
    tally.count(lead.take(sheet)?);
    tally.count(lead.take(&[])?);
    tally.count(lead.close()?[0]);
    Some(())
}

/// A state that no lead made: a few calls in any order.
fn strange(rng: &mut Rng, tally: &mut Tally, sheet: &[u8]) -> Option<()> {
    let taken = *rng.pick(&[0, 1, 8, 4095, 4096, 4097, 4098, 65536, u32::MAX - 1, u32::MAX]);
    let closed = *rng.pick(&[0, 0, 0, 1, 2, u32::MAX]);
    let mut lead = Pair::new([taken, closed], rng.byte());
    for _ in 0..rng.within(1, 6) {
        let answer = if rng.once_in(3) { lead.close()?[0] } else { lead.take(sheet)? };
        tally.count(answer);
    }
    Some(())
}

pub fn suite(rng: &mut Rng, rounds: usize) -> bool {
    let mut tally = Tally::new("serial");
    for round in 0..rounds {
        let mut sheets = if round % 64 == 0 { boundary_sheets(rng) } else { Vec::new() };
        let sheet = random_sheet(rng, 24);
        sheets.extend((0..DAMAGES).map(|way| damage(rng, &sheet, way)));
        sheets.push(sheet);
        for sheet in &sheets {
            if whole(rng, &mut tally, sheet).is_none() {
                return false;
            }
        }
        let any = rng.pick(&sheets).clone();
        if strange(rng, &mut tally, &any).is_none() {
            return false;
        }
    }
    tally.complete(&[0, 1, 2, 3, 4, 5, 6, 7, 8, 9, 10, 18])
}
