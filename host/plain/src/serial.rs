//! Sheets over the serial lead: document 02, order 6.
//!
//! A lead is two numbers that the caller keeps: how many bytes have come, where
//! one more than [`ROOM`] stands for any number above it, and 0 while the lead
//! is open. The bytes that came stand in the caller's buffer.

use crate::sheet::{read, MOST_BYTES};

/// The buffer's size.
pub const ROOM: usize = MOST_BYTES;
/// The answer of every call after closing.
pub const CLOSED: u32 = 18;

/// Takes a piece: 0, or 18 after closing.
pub fn take(state: &mut [u32; 2], sheet: &mut [u8; ROOM], piece: &[u8]) -> u32 {
    let [taken, closed] = *state;
    if closed != 0 {
        return CLOSED;
    }
    if let Some(room) = sheet.get_mut(taken as usize..) {
        let fits = room.len().min(piece.len());
        room[..fits].copy_from_slice(&piece[..fits]);
        let all = u64::from(taken) + piece.len() as u64;
        state[0] = u32::try_from(all).map_or(ROOM as u32 + 1, |all| all.min(ROOM as u32 + 1));
    }
    0
}

/// Closes the lead: the reader's answer and place for the bytes that came, or
/// 18 and 0 after closing.
pub fn close(state: &mut [u32; 2], sheet: &[u8; ROOM]) -> [u32; 2] {
    if state[1] != 0 {
        return [CLOSED, 0];
    }
    state[1] = 1;
    match sheet.get(..state[0] as usize).map(read) {
        Some(Ok(_)) => [0, 0],
        Some(Err(fault)) => [fault.number, fault.place as u32],
        None => [1, 0],
    }
}

#[cfg(test)]
mod tests {
    use super::*;
    use crate::make::{random_sheet, Rng};

    fn told(bytes: &[u8]) -> [u32; 2] {
        read(bytes).map_or_else(|fault| [fault.number, fault.place as u32], |_| [0, 0])
    }

    #[test]
    fn two_pieces_are_one_sheet() {
        let mut rng = Rng::new(6);
        for _ in 0..50 {
            let whole = random_sheet(&mut rng, 8);
            let cut = rng.below(whole.len() + 1);
            let (mut state, mut sheet) = ([0, 0], [0xA5; ROOM]);
            assert_eq!(take(&mut state, &mut sheet, &whole[..cut]), 0);
            assert_eq!(take(&mut state, &mut sheet, &whole[cut..]), 0);
            assert_eq!(sheet[..whole.len()], whole[..]);
            assert_eq!(close(&mut state, &sheet), told(&whole));
            assert_eq!(take(&mut state, &mut sheet, &[]), CLOSED);
            assert_eq!(close(&mut state, &sheet), [CLOSED, 0]);
            assert_eq!(state, [whole.len() as u32, 1]);
        }
    }

    #[test]
    fn too_many_bytes_are_only_counted_as_more() {
        let (mut state, mut sheet) = ([0, 0], [0; ROOM]);
        assert_eq!(take(&mut state, &mut sheet, &[1; ROOM]), 0);
        assert_eq!(state, [4096, 0]);
        assert_eq!(take(&mut state, &mut sheet, &[2; 5]), 0);
        assert_eq!(state, [4097, 0]);
        assert_eq!(sheet, [1; ROOM]);
        assert_eq!(close(&mut state, &sheet), [1, 0]);
    }
}
