//! The proved library, called from Rust: the calls declared once (`raw.rs`), and a thin safe wrapper for each.
//!
//! None of the calls has a precondition on its bytes and numbers. What they ask of pointers, Rust's references give: valid for their
//! length, aligned, and whatever is written borrowed alone. So the wrappers are safe as they stand. `include/naxxurbi.h` tells what each
//! answers.

#![deny(warnings)]
#![deny(missing_docs)]

mod raw;

/// A state: letter k holds in it when the bit worth 2 to the power k - 1 is set. Words, counts and answers are `u32` whatever this is.
pub type State = u32;

/// The most bytes of a sheet, which are the buffer of a serial lead.
pub const BYTES: usize = 4096;
/// The most step rules of a sheet, which are the marks that the planner writes.
pub const RULES: usize = 255;
/// The most reachable states that the judge takes in. Its scratch is twice as long.
pub const STATES: usize = 16_384;
/// The most moments of a sample run: so many states for each of 16 promises.
pub const MOMENTS: usize = 16 * STATES;
/// How many numbers the judge answers.
pub const JUDGED: usize = 5;
/// How many numbers an account is: five, then two tallies for each step rule.
pub const ACCOUNT: usize = 5 + 2 * RULES;
/// The most sheets of a class, and how many numbers each gets.
pub const CLASS_SHEETS: usize = 32;
/// How many numbers a sheet of a class gets.
pub const CLASS_NUMBERS: usize = 4;

/// The judge's five numbers.
#[derive(Clone, Copy, Debug, Default, PartialEq, Eq)]
pub struct Numbers {
    /// 0 to 13, as in document 01.
    pub answer: u32,
    /// The livable states of a sheet that can be kept, the reachable states of one that cannot.
    pub count: u32,
    /// The moment that the sample run goes back to.
    pub a: u32,
    /// The moments of the sample run.
    pub b: u32,
    /// The byte at fault of a bad sheet, else 0.
    pub place: u32,
}

/// Reads a sheet: 0 if it is good, else the number of its first fault.
pub fn read(sheet: &[u8]) -> u32 {
    // SAFETY: the call reads `sheet_len` bytes from the pointer and changes nothing.
    unsafe { raw::naxxurbi_read(sheet.as_ptr(), sheet.len()) }
}

/// The same number, and the place of the fault: a byte, or the sheet's length. 0 for a good sheet.
pub fn read_place(sheet: &[u8]) -> (u32, u32) {
    let mut out = [u32::MAX; 2];
    // SAFETY: the call reads `sheet_len` bytes from the pointer and writes the two numbers.
    unsafe { raw::naxxurbi_read_place(sheet.as_ptr(), sheet.len(), &mut out) };
    out.into()
}

/// Takes a piece of a sheet from a serial lead: 0, or 18 after closing.
pub fn serial_take(lead: &mut [u32; 2], sheet: &mut [u8; BYTES], piece: &[u8]) -> u32 {
    // SAFETY: the call reads `piece_len` bytes from the piece, and reads and writes two numbers and 4,096 bytes behind the other pointers.
    unsafe { raw::naxxurbi_serial_take(lead, sheet, piece.as_ptr(), piece.len()) }
}

/// Closes a serial lead: answer and place.
pub fn serial_close(lead: &mut [u32; 2], sheet: &[u8; BYTES]) -> [u32; 2] {
    let mut out = [u32::MAX; 2];
    // SAFETY: the call reads 4,096 bytes and reads and writes two numbers behind each other pointer.
    unsafe { raw::naxxurbi_serial_close(lead, sheet, &mut out) };
    out
}

/// Checks a run, its states as bytes: 0 if it is accepted, 14 if not, 1 to 10 for a bad sheet.
pub fn check_run(sheet: &[u8], states: &[u8], a: u32) -> u32 {
    // SAFETY: the call reads as many bytes from each pointer as its length says, and changes nothing.
    unsafe { raw::naxxurbi_check_run(sheet.as_ptr(), sheet.len(), states.as_ptr(), states.len(), a) }
}

/// Checks a strike list, its states and words as bytes: 0 if it is accepted, 14 if not, 1 to 10 for a bad sheet.
pub fn check_strikes(sheet: &[u8], states: &[u8], words: &[u8]) -> u32 {
    // SAFETY: the call reads as many bytes from each pointer as its length says, and changes nothing.
    unsafe { raw::naxxurbi_check_strikes(sheet.as_ptr(), sheet.len(), states.as_ptr(), states.len(), words.as_ptr(), words.len()) }
}

/// A paper's states as the bytes that the checkers read, the highest of each first.
pub fn state_bytes(states: &[State]) -> Vec<u8> {
    states.iter().flat_map(|state| state.to_be_bytes()).collect()
}

/// A strike list's words as the bytes that the checkers read, four to each, the highest first.
pub fn word_bytes(words: &[u32]) -> Vec<u8> {
    words.iter().flat_map(|word| word.to_be_bytes()).collect()
}

/// Judges a sheet in the slices lent.
pub fn judge(sheet: &[u8], table: &mut [State], words: &mut [u32], scratch: &mut [State], run: &mut [State]) -> Numbers {
    let mut out = [u32::MAX; JUDGED];
    // SAFETY: the call reads `sheet_len` bytes, reads and writes as many numbers of each slice as its length says, and writes the five
    // numbers; the slices do not overlap, for each is borrowed alone.
    unsafe {
        raw::naxxurbi_judge(
            sheet.as_ptr(),
            sheet.len(),
            table.as_mut_ptr(),
            table.len(),
            words.as_mut_ptr(),
            words.len(),
            scratch.as_mut_ptr(),
            scratch.len(),
            run.as_mut_ptr(),
            run.len(),
            &mut out,
        );
    }
    let [answer, count, a, b, place] = out;
    Numbers { answer, count, a, b, place }
}

/// Carries an account on by a piece of a log: 0, or 15 where it is past 1,000,000 moments then, or 1 to 10 for a bad sheet.
pub fn audit(sheet: &[u8], account: &mut [u32; ACCOUNT], states: &[State]) -> u32 {
    // SAFETY: the call reads `sheet_len` bytes and `states_len` numbers, and reads and writes the account's numbers; they do not overlap,
    // for the account is borrowed alone.
    unsafe { raw::naxxurbi_audit(sheet.as_ptr(), sheet.len(), account, states.as_ptr(), states.len()) }
}

/// Judges joined sheets in turn with the same slices: 0, or 16 for a class that is refused.
pub fn judge_class(
    sheets: &[u8],
    ends: &[u32],
    table: &mut [State],
    words: &mut [u32],
    scratch: &mut [State],
    run: &mut [State],
    numbers: &mut [u32],
) -> u32 {
    // SAFETY: the call reads `sheets_len` bytes and `ends_len` numbers, and reads and writes as many numbers of each other slice as its
    // length says; the slices do not overlap, for each that is written is borrowed alone.
    unsafe {
        raw::naxxurbi_judge_class(
            sheets.as_ptr(),
            sheets.len(),
            ends.as_ptr(),
            ends.len(),
            table.as_mut_ptr(),
            table.len(),
            words.as_mut_ptr(),
            words.len(),
            scratch.as_mut_ptr(),
            scratch.len(),
            run.as_mut_ptr(),
            run.len(),
            numbers.as_mut_ptr(),
            numbers.len(),
        )
    }
}

/// Checks a choice of step rules, counted from 1: 0 if they fight, 14 if not, 17 where a sheet needs more room, 1 to 10 for a bad sheet.
pub fn check_clash(sheet: &[u8], rules: &[u32], table: &mut [State], words: &mut [u32], scratch: &mut [State]) -> u32 {
    // SAFETY: the call reads `sheet_len` bytes and `rules_len` numbers, and reads and writes as many numbers of each other slice as its
    // length says; the slices do not overlap, for each that is written is borrowed alone.
    unsafe {
        raw::naxxurbi_check_clash(
            sheet.as_ptr(),
            sheet.len(),
            rules.as_ptr(),
            rules.len(),
            table.as_mut_ptr(),
            table.len(),
            words.as_mut_ptr(),
            words.len(),
            scratch.as_mut_ptr(),
            scratch.len(),
        )
    }
}

/// Proposes step rules that fight: the answer, and a mark for each of 255 rules.
pub fn clash(sheet: &[u8], table: &mut [State], words: &mut [u32], scratch: &mut [State]) -> (u32, [u8; RULES]) {
    let mut marks = [u8::MAX; RULES];
    // SAFETY: the call reads `sheet_len` bytes, reads and writes as many numbers of each slice as its length says, and writes the marks;
    // the slices do not overlap, for each is borrowed alone.
    let answer = unsafe {
        raw::naxxurbi_clash(
            sheet.as_ptr(),
            sheet.len(),
            table.as_mut_ptr(),
            table.len(),
            words.as_mut_ptr(),
            words.len(),
            scratch.as_mut_ptr(),
            scratch.len(),
            &mut marks,
        )
    };
    (answer, marks)
}
