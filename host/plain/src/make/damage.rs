//! Damage to a good sheet, in every way that the reader has to notice.

use super::parts::{with_length, Kind, Parts};
use super::Rng;

/// How many kinds of damage there are.
pub const DAMAGES: usize = 26;

/// Damages a good sheet in one of the `DAMAGES` ways. Where a sheet has nothing
/// of the sort to damage, it comes back as it was; some damage leaves another
/// good sheet.
pub fn damage(rng: &mut Rng, sheet: &[u8], way: usize) -> Vec<u8> {
    try_damage(rng, sheet, way).unwrap_or_else(|| sheet.to_vec())
}

fn try_damage(rng: &mut Rng, sheet: &[u8], way: usize) -> Option<Vec<u8>> {
    let mut bytes = sheet.to_vec();
    let mut parts = Parts::of(sheet)?;
    let letters = parts.header[3];
    match way % DAMAGES {
        // Some byte becomes another.
        0 => {
            let place = rng.below(bytes.len());
            bytes[place] ^= rng.within(1, 255) as u8;
            return Some(bytes);
        }
        // Some byte behind the stated length becomes another.
        1 => {
            let place = rng.within(3, bytes.len() - 1);
            bytes[place] ^= rng.within(1, 255) as u8;
            return Some(bytes);
        }
        // Cut off, with the length put right or not.
        2 => {
            bytes.truncate(rng.below(bytes.len()));
            return Some(bytes);
        }
        3 => {
            bytes.truncate(rng.within(8.min(bytes.len() - 1), bytes.len() - 1));
            return Some(with_length(bytes));
        }
        // More bytes at the end.
        4 => {
            bytes.extend((0..rng.within(1, 5)).map(|_| rng.byte()));
            return Some(with_length(bytes));
        }
        5 => {
            bytes.extend((0..rng.within(1, 5)).map(|_| rng.byte()));
            return Some(bytes);
        }
        // A count one higher, one lower, or anything.
        6 => {
            let count = &mut bytes[rng.within(4, 7)];
            *count = match rng.below(3) {
                0 => count.wrapping_add(1),
                1 => count.wrapping_sub(1),
                _ => rng.byte(),
            };
            return Some(bytes);
        }
        7 => {
            let (place, most) = *rng.pick(&[(4, 32), (7, 16)]);
            bytes[place] = rng.within(most, 255) as u8;
            return Some(bytes);
        }
        // Another version.
        8 => {
            bytes[0] = *rng.pick(&[0, 2, 255, 129]);
            return Some(bytes);
        }
        // Another stated length.
        9 => {
            let place = rng.within(1, 2);
            bytes[place] = bytes[place].wrapping_add(*rng.pick(&[1, 255, 128]));
            return Some(bytes);
        }
        // Too few or too many letters, or fewer than the literals need.
        10 => {
            bytes[3] = *rng.pick(&[0, 25, 128, 255]);
            return Some(bytes);
        }
        11 => {
            bytes[3] = rng.within(1, letters.into()) as u8;
            return Some(bytes);
        }
        // Far too short or too long.
        12 => {
            bytes.resize(*rng.pick(&[0, 1, 7, 4096, 4097, 5000, 65536 + 8]), 0);
            return Some(with_length(bytes));
        }
        // Two literals change places, or one becomes the one before it.
        13 | 14 => {
            let places = parts.literals();
            let (record, place) = *rng.pick(places.get(..).filter(|p| !p.is_empty())?);
            let record = &mut parts.records[record].1;
            if place == 0 {
                return None;
            }
            if way % DAMAGES == 13 {
                record.swap(place - 1, place);
            } else {
                record[place] = record[place - 1];
            }
        }
        // A literal that is none.
        15 | 16 => {
            let places = parts.literals();
            let (record, place) = *rng.pick(places.get(..).filter(|p| !p.is_empty())?);
            let sizes = [0, 128, letters + 1, (letters + 1).wrapping_neg(), 127, 129];
            parts.records[record].1[place] = *rng.pick(&sizes);
        }
        // A byte too many inside a record.
        17 => {
            let number = rng.below(parts.records.len());
            let record = &mut parts.records.get_mut(number)?.1;
            let place = rng.within(0, record.len());
            record.insert(place, *rng.pick(&[0, 1, 255, 128]));
        }
        // A wrong length byte: the rest of the sheet is read askew.
        18 => {
            let number = rng.below(parts.records.len());
            let before: usize = parts.records.get(..number)?.iter().map(|r| 1 + r.1.len()).sum();
            let length = bytes.get_mut(8 + before)?;
            *length = match rng.below(3) {
                0 => length.wrapping_add(1),
                1 => length.wrapping_sub(1),
                _ => rng.byte(),
            };
            return Some(bytes);
        }
        // A limit of another kind, or cut short.
        19 => parts.record(rng, Kind::Limit)?[0] = rng.within(2, 255) as u8,
        20 => {
            let short = rng.below(2);
            parts.record(rng, Kind::Limit)?.truncate(short);
        }
        // A step rule with a count too large by one or more, or empty.
        21 => {
            let by = *rng.pick(&[0, 0, 1, 100]);
            let record = parts.record(rng, Kind::Step)?;
            record[0] = (record.len() as u8).saturating_add(by);
        }
        22 => parts.record(rng, Kind::Step)?.clear(),
        // A promise of no bytes or of two.
        23 => {
            let record = parts.record(rng, Kind::Promise)?;
            match rng.below(2) {
                0 => record.clear(),
                _ => record.push(1),
            }
        }
        // A record of 255 bytes: more than a list in order can have.
        24 => {
            let number = rng.below(parts.records.len());
            let record = &mut parts.records.get_mut(number)?.1;
            let first = rng.byte();
            let up = (0..=255).map(|step: u8| first.wrapping_add(step));
            record.extend(up);
            record.truncate(255);
        }
        // Any bytes behind a header that promises a few records.
        _ => {
            let few = [2, 2, 3, 1].map(|most| rng.within(0, most) as u8);
            bytes = vec![1, 0, 0, rng.within(1, 24) as u8];
            bytes.extend(few);
            let length = rng.below(40);
            bytes.extend((0..length).map(|_| match rng.below(4) {
                0 => rng.byte(),
                1 => rng.within(0, 3) as u8,
                2 => (rng.within(0, 3) as u8).wrapping_neg(),
                _ => rng.within(0, 8) as u8,
            }));
            return Some(with_length(bytes));
        }
    }
    Some(parts.bytes())
}
