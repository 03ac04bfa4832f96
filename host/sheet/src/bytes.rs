//! A sheet's bytes, written and read. The reader's verdict is the proved one; taking a good sheet apart is the plain implementation's work.

use crate::answers::Fault;
use crate::model::{Limit, Literal, Sheet, Step};

/// The version byte of the sheets that are written.
const VERSION: u8 = 1;

/// The sheet's bytes. A sheet out of a text is within every bound, so each count and length fits its byte.
pub fn write(sheet: &Sheet) -> Vec<u8> {
    let counts = [sheet.names.len(), sheet.limits.len(), sheet.first.len(), sheet.steps.len(), sheet.promises.len()];
    let mut bytes = vec![VERSION, 0, 0];
    bytes.extend(counts.map(|count| count as u8));
    for limit in &sheet.limits {
        push(&mut bytes, &[u8::from(!limit.exactly), limit.bound], &limit.list);
    }
    for rule in &sheet.first {
        push(&mut bytes, &[], rule);
    }
    for step in &sheet.steps {
        push(&mut bytes, &[step.left.len() as u8], &[&step.left[..], &step.right[..]].concat());
    }
    for &promise in &sheet.promises {
        push(&mut bytes, &[], &[promise]);
    }
    let length = (bytes.len() as u16).to_be_bytes();
    bytes[1..3].copy_from_slice(&length);
    bytes
}

/// Adds a record: its length, what stands before its literals, its literals.
fn push(bytes: &mut Vec<u8>, before: &[u8], list: &[Literal]) {
    bytes.push((before.len() + list.len()) as u8);
    bytes.extend_from_slice(before);
    bytes.extend(list.iter().map(|&literal| literal as u8));
}

/// A sheet out of bytes, its letters still without names; or the proved reader's fault.
pub fn read(bytes: &[u8]) -> Result<Sheet, Fault> {
    if let Some(fault) = Fault::of_sheet(bytes) {
        return Err(fault);
    }
    let good = plain::sheet::read(bytes).expect("the plain reader takes what the proved reader takes");
    Ok(Sheet {
        names: vec![String::new(); good.letters() as usize],
        limits: good.limits().map(|l| Limit { exactly: l.exactly, bound: l.bound, list: l.literals.to_vec() }).collect(),
        first: good.first_rules().map(<[Literal]>::to_vec).collect(),
        steps: good.step_rules().map(|s| Step { left: s.left.to_vec(), right: s.right.to_vec() }).collect(),
        promises: good.promises().to_vec(),
        ..Sheet::default()
    })
}
