//! The whole class in one call.

use crate::judge::{judge, Answer};
use crate::State;

/// The most sheets in one call.
pub const SHEETS: usize = 32;

/// How many numbers each sheet gets: answer, count, a, b.
pub const EACH: usize = 4;

/// The answer to a class that is refused.
pub const REFUSED: u32 = 16;

/// Judges sheets that are joined, in turn and with the same slices.
///
/// `ends` has the place where each sheet ends. Each sheet's four numbers go
/// into `numbers`, one sheet after the other. A class that is refused changes
/// nothing.
pub fn judge_class(
    sheets: &[u8],
    ends: &[u32],
    table: &mut [State],
    words: &mut [u32],
    scratch: &mut [State],
    run: &mut [State],
    numbers: &mut [u32],
) -> u32 {
    let Some(class) = cut(sheets, ends) else {
        return REFUSED;
    };
    if class.len() > SHEETS || numbers.len() / EACH < class.len() {
        return REFUSED;
    }
    for (sheet, places) in class.iter().zip(numbers.chunks_exact_mut(EACH)) {
        let Answer { answer, count, a, b, .. } = judge(sheet, table, words, scratch, run);
        places.copy_from_slice(&[answer, count, a, b]);
    }
    0
}

/// The sheets, if each end is within the input and no lower than the end before
/// it, and nothing is left over.
fn cut<'a>(mut left: &'a [u8], ends: &[u32]) -> Option<Vec<&'a [u8]>> {
    let mut class = Vec::new();
    let mut start = 0;
    for &end in ends {
        let length = end.checked_sub(start)? as usize;
        if length > left.len() {
            return None;
        }
        let (sheet, rest) = left.split_at(length);
        class.push(sheet);
        left = rest;
        start = end;
    }
    left.is_empty().then_some(class)
}

#[cfg(test)]
mod tests {
    use super::{judge_class, EACH, REFUSED, SHEETS};
    use crate::named::wall;

    /// The answer, and the numbers as they were left.
    fn judged(sheets: &[u8], ends: &[u32], room: usize) -> (u32, Vec<u32>) {
        let (mut table, mut words, mut scratch, mut run) = ([7; 4], [7; 4], [7; 8], [7; 4]);
        let mut numbers = vec![7; room];
        let answer =
            judge_class(sheets, ends, &mut table, &mut words, &mut scratch, &mut run, &mut numbers);
        (answer, numbers)
    }

    /// W1, nothing, W4.
    fn three() -> (Vec<u8>, [u32; 3]) {
        let wall = wall();
        let (w1, w4) = (&wall[0].sheet, &wall[3].sheet);
        let (first, last) = (w1.len() as u32, (w1.len() + w4.len()) as u32);
        ([&w1[..], &w4[..]].concat(), [first, first, last])
    }

    #[test]
    fn each_sheet_gets_its_numbers() {
        let (sheets, ends) = three();
        let wanted = vec![0, 2, 0, 1, 1, 0, 0, 0, 13, 2, 0, 0, 7];
        assert_eq!(judged(&sheets, &ends, 13), (0, wanted));
    }

    #[test]
    fn no_ends_and_no_input_is_no_sheet() {
        assert_eq!(judged(&[], &[], 2), (0, vec![7, 7]));
    }

    #[test]
    fn what_is_refused_changes_nothing() {
        let (sheets, [first, middle, last]) = three();
        for ends in [
            &[first, middle - 1, last][..],
            &[first, last + 1, last],
            &[first, middle, last + 1],
            &[first, middle, last - 1],
            &[first, middle],
            &[],
        ] {
            assert_eq!(judged(&sheets, ends, 12), (REFUSED, vec![7; 12]), "{ends:?}");
        }
        assert_eq!(judged(&sheets, &[first, middle, last], 11), (REFUSED, vec![7; 11]));
        let many = [0; SHEETS + 1];
        assert_eq!(judged(&[], &many, EACH * many.len()).0, REFUSED);
        assert_eq!(judged(&[], &many[1..], EACH * many.len()).0, 0);
    }
}
