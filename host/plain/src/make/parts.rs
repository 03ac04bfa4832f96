//! A sheet's bytes taken apart into header and records, and put together again.

use super::Rng;

/// A record's kind.
#[derive(Clone, Copy, Debug, PartialEq, Eq)]
pub(super) enum Kind {
    Limit,
    First,
    Step,
    Promise,
}

/// A sheet taken apart: the header and each record without its length byte.
#[derive(Clone, Debug)]
pub(super) struct Parts {
    pub header: [u8; 8],
    pub records: Vec<(Kind, Vec<u8>)>,
}

impl Parts {
    /// Takes a good sheet apart; of a bad one, what there is.
    pub fn of(sheet: &[u8]) -> Option<Parts> {
        let (&header, mut rest) = sheet.split_first_chunk::<8>()?;
        let kinds = [Kind::Limit, Kind::First, Kind::Step, Kind::Promise];
        let mut records = Vec::new();
        for (kind, &count) in kinds.into_iter().zip(&header[4..]) {
            for _ in 0..count {
                let (&length, after) = rest.split_first()?;
                let (record, after) = after.split_at_checked(length.into())?;
                records.push((kind, record.to_vec()));
                rest = after;
            }
        }
        Some(Parts { header, records })
    }

    /// Puts the sheet together again, with its true length.
    pub fn bytes(&self) -> Vec<u8> {
        let mut sheet = self.header.to_vec();
        for (_, record) in &self.records {
            sheet.push(record.len() as u8);
            sheet.extend(record);
        }
        with_length(sheet)
    }

    /// The places of all literals: record, and byte in it.
    pub fn literals(&self) -> Vec<(usize, usize)> {
        let mut places = Vec::new();
        for (number, (kind, record)) in self.records.iter().enumerate() {
            let from = match kind {
                Kind::Limit => 2,
                Kind::Step => 1,
                Kind::First | Kind::Promise => 0,
            };
            places.extend((from..record.len()).map(|place| (number, place)));
        }
        places
    }

    /// Some record of this kind.
    pub fn record(&mut self, rng: &mut Rng, kind: Kind) -> Option<&mut Vec<u8>> {
        let mut of_kind: Vec<&mut Vec<u8>> =
            self.records.iter_mut().filter(|record| record.0 == kind).map(|r| &mut r.1).collect();
        if of_kind.is_empty() {
            return None;
        }
        let chosen = rng.below(of_kind.len());
        Some(of_kind.swap_remove(chosen))
    }
}

/// Writes the true length into bytes 1 and 2.
pub(crate) fn with_length(mut sheet: Vec<u8>) -> Vec<u8> {
    let length = (sheet.len() as u16).to_be_bytes();
    if let Some(place) = sheet.get_mut(1..3) {
        place.copy_from_slice(&length);
    }
    sheet
}
