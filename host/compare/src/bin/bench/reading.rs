//! Reading a sheet.

use crate::{measure, Only, Row, Table, LONG};
use plain::make::{counter, w15, Draft};
use std::hint::black_box;

/// A good sheet of exactly 4,096 bytes: step rules over 24 letters, then first rules that fill up the rest.
fn longest_sheet() -> Vec<u8> {
    let all: Vec<i8> = (-24..=24).filter(|&l| l != 0).collect();
    let mut draft = Draft::new(24);
    for _ in 0..41 {
        draft.step(all.clone(), all.clone());
    }
    let mut left = 4096 - draft.bytes().len();
    while left > 49 {
        let take = if left < 98 { left - 49 } else { 49 };
        draft.first(all[..take - 1].to_vec());
        left -= take;
    }
    draft.first(all[..left - 1].to_vec());
    let sheet = draft.bytes();
    assert_eq!(sheet.len(), 4096);
    sheet
}

/// A sheet with as many records as there can be, each as small as can be.
fn most_records() -> Vec<u8> {
    let mut draft = Draft::new(24);
    draft.limits = vec![(true, 0, Vec::new()); 32];
    draft.first = vec![vec![1]; 255];
    draft.steps = vec![(vec![1], vec![1]); 255];
    draft.promises = vec![1; 16];
    draft.bytes()
}

/// The longest sheet with its last literal twice: number and place, which both readers find in the last byte.
fn with_the_place(only: &Only) -> Option<Row> {
    let name = "reading: longest sheet, its last byte bad, with the place".to_string();
    let mut sheet = longest_sheet();
    let last = sheet.len() - 1;
    sheet[last] = sheet[last - 1];
    let found = (9, last as u32);
    assert_eq!((naxxurbi_calls::read_place(&sheet), plain::sheet::read_place(&sheet)), (found, found));
    let length = vec![sheet.len().to_string()];
    let (ours, plain) = (|| naxxurbi_calls::read_place(black_box(&sheet)), || plain::sheet::read_place(black_box(&sheet)));
    only.wants(&name).then(|| measure(name, length, LONG, ours, plain))
}

pub fn table(only: &Only) -> Table {
    let sheets = [
        ("longest sheet", longest_sheet()),
        ("most records", most_records()),
        ("counter of 12 letters", counter(12).bytes()),
        ("W15, the robots", w15().bytes()),
    ];
    let rows = sheets
        .into_iter()
        .map(|(name, sheet)| (format!("reading: {name}"), sheet))
        .filter(|(name, _)| only.wants(name))
        .map(|(name, sheet)| {
            assert_eq!(plain::sheet::read_number(&sheet), 0);
            let length = vec![sheet.len().to_string()];
            measure(name, length, LONG, || naxxurbi_calls::read(black_box(&sheet)), || plain::sheet::read_number(black_box(&sheet)))
        })
        .chain(with_the_place(only))
        .collect();
    Table { title: "Reading", heads: &["bytes"], rows }
}
