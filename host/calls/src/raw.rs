//! The declarations, as `include/naxxurbi.h` has them for C; what each call does is told there. Rust code has them here and nowhere else.
//!
//! Nothing checks a declaration against the proved source, so they are few and plain: numbers, and slices as a pointer and a length.

use crate::{State, ACCOUNT, BYTES, JUDGED, RULES};

extern "C" {
    pub fn naxxurbi_read(sheet: *const u8, sheet_len: usize) -> u32;
    pub fn naxxurbi_read_place(sheet: *const u8, sheet_len: usize, out: *mut [u32; 2]);
    pub fn naxxurbi_serial_take(state: *mut [u32; 2], sheet: *mut [u8; BYTES], piece: *const u8, piece_len: usize) -> u32;
    pub fn naxxurbi_serial_close(state: *mut [u32; 2], sheet: *const [u8; BYTES], out: *mut [u32; 2]);
    pub fn naxxurbi_check_run(sheet: *const u8, sheet_len: usize, states: *const u8, states_len: usize, a: u32) -> u32;
    pub fn naxxurbi_check_strikes(
        sheet: *const u8,
        sheet_len: usize,
        states: *const u8,
        states_len: usize,
        words: *const u8,
        words_len: usize,
    ) -> u32;
    pub fn naxxurbi_judge(
        sheet: *const u8,
        sheet_len: usize,
        table: *mut State,
        table_len: usize,
        words: *mut u32,
        words_len: usize,
        scratch: *mut State,
        scratch_len: usize,
        run: *mut State,
        run_len: usize,
        out: *mut [u32; JUDGED],
    );
    pub fn naxxurbi_audit(sheet: *const u8, sheet_len: usize, account: *mut [u32; ACCOUNT], states: *const State, states_len: usize)
        -> u32;
    pub fn naxxurbi_judge_class(
        sheets: *const u8,
        sheets_len: usize,
        ends: *const u32,
        ends_len: usize,
        table: *mut State,
        table_len: usize,
        words: *mut u32,
        words_len: usize,
        scratch: *mut State,
        scratch_len: usize,
        run: *mut State,
        run_len: usize,
        numbers: *mut u32,
        numbers_len: usize,
    ) -> u32;
    pub fn naxxurbi_check_clash(
        sheet: *const u8,
        sheet_len: usize,
        rules: *const u32,
        rules_len: usize,
        table: *mut State,
        table_len: usize,
        words: *mut u32,
        words_len: usize,
        scratch: *mut State,
        scratch_len: usize,
    ) -> u32;
    pub fn naxxurbi_clash(
        sheet: *const u8,
        sheet_len: usize,
        table: *mut State,
        table_len: usize,
        words: *mut u32,
        words_len: usize,
        scratch: *mut State,
        scratch_len: usize,
        marks: *mut [u8; RULES],
    ) -> u32;
}
