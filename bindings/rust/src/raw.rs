//! The C functions on slices, with the buffers that the caller lends.
//!
//! Each function passes its slices on as they are and answers what the C function answers, 0, a length or a record number: nothing
//! is checked, copied or hidden here, so that a test sees every byte that the library writes. A refusal is the negative number of
//! its question. A buffer of the longest length below is never too short; [`LONGEST_TABLE_TAKEN`] is the length of an input.

/// No summary is longer, in bytes.
pub const LONGEST_SUMMARY: usize = 1_788;

/// No plan is longer, in bytes: that of 64 summaries has at most 2 × 64 - 3 lines.
pub const LONGEST_PLAN: usize = 125 * crate::Line::LENGTH;

/// No runs are longer, in bytes: there is one for each line, of 38 bytes in mode 5, of 30 in the others.
pub const LONGEST_RUNS: usize = 125 * crate::Run::LONGEST;

/// No longer table is taken by [`write_log`], in bytes: it has at most 2,730 lines.
pub const LONGEST_TABLE_TAKEN: usize = 2_730 * crate::TableLine::LENGTH;

/// No log written by [`write_log`] is longer, in bytes.
pub const LONGEST_LOG_WRITTEN: usize = 2_730 * crate::TableLine::LOG_LENGTH;

/// No table written by [`read_table`] is longer, in bytes: a log of 65,536 bytes has at most 4,096 opened records, of 10 bytes and 6
/// for the close.
pub const LONGEST_TABLE_READ: usize = 4_096 * crate::TableLine::LENGTH;

/// No logs written by [`small_days`] are longer, in bytes: 429 logs open 8 records, of 10 bytes each and 6 for the close.
pub const LONGEST_SMALL_DAYS: usize = 429 * 8 * (10 + 6);

/// No line written by [`heaviest_line`] is longer, in bytes: a number of 4 bytes for each depth from 0 to 63.
pub const LONGEST_HEAVIEST_LINE: usize = 64 * 4;

/// No page written by [`sheet`] is longer, in bytes: 60 lines of 27.
pub const LONGEST_PAGE: usize = 60 * 27;

/// The state of a valley station has just so many bytes: a slot for each of its eight farms, as long as the longest summary.
pub const FARMS_STATE: usize = 8 * LONGEST_SUMMARY;

mod ffi {
    extern "C" {
        pub fn tulghimo_read_record(chunk: *const u8, n: usize, fields: *mut i64) -> i64;
        pub fn tulghimo_summarise(chunk: *const u8, n: usize, mode: u32, out: *mut u8, cap: usize) -> i64;
        pub fn tulghimo_merge(left: *const u8, ln: usize, right: *const u8, rn: usize, out: *mut u8, cap: usize) -> i64;
        pub fn tulghimo_merge_row(row: *const u8, n: usize, out: *mut u8, cap: usize) -> i64;
        pub fn tulghimo_finish(summary: *const u8, n: usize, figure: *mut i64) -> i64;
        pub fn tulghimo_plan(row: *const u8, n: usize, out: *mut u8, cap: usize) -> i64;
        pub fn tulghimo_runs(row: *const u8, n: usize, out: *mut u8, cap: usize) -> i64;
        pub fn tulghimo_work(row: *const u8, n: usize, totals: *mut i64) -> i64;
        pub fn tulghimo_day(log: *const u8, n: usize, figures: *mut i64) -> i64;
        pub fn tulghimo_write_log(table: *const u8, n: usize, out: *mut u8, cap: usize) -> i64;
        pub fn tulghimo_read_table(log: *const u8, n: usize, out: *mut u8, cap: usize) -> i64;
        pub fn tulghimo_small_days(n: u32, out: *mut u8, cap: usize) -> i64;
        pub fn tulghimo_backwards(run: *const u8, n: usize, y: i64, x: *mut i64) -> i64;
        pub fn tulghimo_heaviest_line(log: *const u8, n: usize, out: *mut u8, cap: usize) -> i64;
        pub fn tulghimo_sheet(log: *const u8, n: usize, mode: u32, page: u32, out: *mut u8, cap: usize) -> i64;
        pub fn tulghimo_common(log: *const u8, n: usize, a: u32, b: u32) -> i64;
        pub fn tulghimo_farms_fresh(mode: u32, state: *mut u8) -> i64;
        pub fn tulghimo_farms_send(state: *mut u8, farm: u32, summary: *const u8, n: usize) -> i64;
        pub fn tulghimo_farms_end_of_day(state: *mut u8, farm: u32, out: *mut u8, cap: usize) -> i64;
    }
}

/// Reads the first record of a chunk: 0 and kind, length, depth, value, floor, ceiling and batch, or -3.
pub fn read_record(chunk: &[u8], fields: &mut [i64; 7]) -> i64 {
    // SAFETY: the slice has as many bytes as it is said to have, and the array has the seven numbers that the call may store.
    unsafe { ffi::tulghimo_read_record(chunk.as_ptr(), chunk.len(), fields.as_mut_ptr()) }
}

/// Summarises a chunk in a mode into `out`: the length written, or minus the refusal (1, 2, 3 or 12).
pub fn summarise(chunk: &[u8], mode: u32, out: &mut [u8]) -> i64 {
    // SAFETY: each slice has as many bytes as it is said to have, and the lent one is not borrowed elsewhere.
    unsafe { ffi::tulghimo_summarise(chunk.as_ptr(), chunk.len(), mode, out.as_mut_ptr(), out.len()) }
}

/// Merges two summaries into `out`: the length written, or minus the refusal (5, 6 or 12).
pub fn merge(left: &[u8], right: &[u8], out: &mut [u8]) -> i64 {
    // SAFETY: each slice has as many bytes as it is said to have, and the lent one is not borrowed elsewhere.
    unsafe { ffi::tulghimo_merge(left.as_ptr(), left.len(), right.as_ptr(), right.len(), out.as_mut_ptr(), out.len()) }
}

/// Merges a row of summaries, end to end, into `out`: the length written, or minus the refusal (4, 5, 6 or 12).
pub fn merge_row(row: &[u8], out: &mut [u8]) -> i64 {
    // SAFETY: each slice has as many bytes as it is said to have, and the lent one is not borrowed elsewhere.
    unsafe { ffi::tulghimo_merge_row(row.as_ptr(), row.len(), out.as_mut_ptr(), out.len()) }
}

/// Finishes one summary: 0 and its figure, or minus the refusal (5 or 7 to 11).
pub fn finish(summary: &[u8], figure: &mut [i64; 1]) -> i64 {
    // SAFETY: the slice has as many bytes as it is said to have, and the array has the one number that the call may store.
    unsafe { ffi::tulghimo_finish(summary.as_ptr(), summary.len(), figure.as_mut_ptr()) }
}

/// Writes the join plan of a row into `out`: the length written, or minus the refusal (4 to 12).
pub fn plan(row: &[u8], out: &mut [u8]) -> i64 {
    // SAFETY: each slice has as many bytes as it is said to have, and the lent one is not borrowed elsewhere.
    unsafe { ffi::tulghimo_plan(row.as_ptr(), row.len(), out.as_mut_ptr(), out.len()) }
}

/// Writes the runs of a row's join plan into `out`, one for each line: the length written, or minus the refusal (4 to 12).
pub fn runs(row: &[u8], out: &mut [u8]) -> i64 {
    // SAFETY: each slice has as many bytes as it is said to have, and the lent one is not borrowed elsewhere.
    unsafe { ffi::tulghimo_runs(row.as_ptr(), row.len(), out.as_mut_ptr(), out.len()) }
}

/// Works along a row's join plan: 0 and the figure, the joins used and the levels folded, or minus the refusal (4 to 11).
pub fn work(row: &[u8], totals: &mut [i64; 3]) -> i64 {
    // SAFETY: the slice has as many bytes as it is said to have, and the array has the three numbers that the call may store.
    unsafe { ffi::tulghimo_work(row.as_ptr(), row.len(), totals.as_mut_ptr()) }
}

/// The figures of a whole log: 0 and net, heaviest, eaten (mode 5) and stamp, or minus the refusal (2, 3, 7, 8, 10 or 11).
pub fn day(log: &[u8], figures: &mut [i64; 4]) -> i64 {
    // SAFETY: the slice has as many bytes as it is said to have, and the array has the four numbers that the call may store.
    unsafe { ffi::tulghimo_day(log.as_ptr(), log.len(), figures.as_mut_ptr()) }
}

/// Writes the log of a day table into `out`: the length written, or minus the refusal (2, 3, 13, 10 or 12).
pub fn write_log(table: &[u8], out: &mut [u8]) -> i64 {
    // SAFETY: each slice has as many bytes as it is said to have, and the lent one is not borrowed elsewhere.
    unsafe { ffi::tulghimo_write_log(table.as_ptr(), table.len(), out.as_mut_ptr(), out.len()) }
}

/// Writes the day table of a whole log into `out`: the length written, or minus the refusal (2, 3, 7, 8, 10, 11 or 12).
pub fn read_table(log: &[u8], out: &mut [u8]) -> i64 {
    // SAFETY: each slice has as many bytes as it is said to have, and the lent one is not borrowed elsewhere.
    unsafe { ffi::tulghimo_read_table(log.as_ptr(), log.len(), out.as_mut_ptr(), out.len()) }
}

/// Writes all well-formed logs with n opened records into `out`, n from 1 to 8, each record short and of value 1: the length written, or
/// minus the refusal (14 or 12).
pub fn small_days(n: u32, out: &mut [u8]) -> i64 {
    // SAFETY: the slice has as many bytes as it is said to have, and is not borrowed elsewhere.
    unsafe { ffi::tulghimo_small_days(n, out.as_mut_ptr(), out.len()) }
}

/// Backwards through a run: 0 and the inner figure x that leads to y, or minus the refusal (15, 16 or 17).
pub fn backwards(run: &[u8], y: i64, x: &mut [i64; 1]) -> i64 {
    // SAFETY: the slice has as many bytes as it is said to have, and the array has the number that the call may store.
    unsafe { ffi::tulghimo_backwards(run.as_ptr(), run.len(), y, x.as_mut_ptr()) }
}

/// Writes the numbers of the records behind a whole log's heaviest figure into `out`, 4 bytes each: the length written, or minus the
/// refusal (2, 3, 7, 8, 10, 11 or 12).
pub fn heaviest_line(log: &[u8], out: &mut [u8]) -> i64 {
    // SAFETY: each slice has as many bytes as it is said to have, and the lent one is not borrowed elsewhere.
    unsafe { ffi::tulghimo_heaviest_line(log.as_ptr(), log.len(), out.as_mut_ptr(), out.len()) }
}

/// Writes a page of a whole log's sheet in a mode into `out`, 27 bytes a line: the length written, or minus the refusal (1, 2, 3, 7,
/// 8, 10, 11, 18 or 12).
pub fn sheet(log: &[u8], mode: u32, page: u32, out: &mut [u8]) -> i64 {
    // SAFETY: each slice has as many bytes as it is said to have, and the lent one is not borrowed elsewhere.
    unsafe { ffi::tulghimo_sheet(log.as_ptr(), log.len(), mode, page, out.as_mut_ptr(), out.len()) }
}

/// What two records of a whole log have in common: the number of the deepest record that is each of them or holds it, or minus the
/// refusal (2, 3, 7, 8, 10, 11 or 19).
pub fn common(log: &[u8], a: u32, b: u32) -> i64 {
    // SAFETY: the slice has as many bytes as it is said to have.
    unsafe { ffi::tulghimo_common(log.as_ptr(), log.len(), a, b) }
}

/// Makes a valley station's state fresh in a mode: 0, or minus the refusal (1).
pub fn farms_fresh(mode: u32, state: &mut [u8; FARMS_STATE]) -> i64 {
    // SAFETY: the array has the bytes of a state, and is not borrowed elsewhere.
    unsafe { ffi::tulghimo_farms_fresh(mode, state.as_mut_ptr()) }
}

/// Merges a summary at the right end of a farm's running summary, in the state: 0, or minus the refusal (20, 5, 6 or 21).
pub fn farms_send(state: &mut [u8; FARMS_STATE], farm: u32, summary: &[u8]) -> i64 {
    // SAFETY: the array has the bytes of a state, the slice as many as it is said to have, and the state is not borrowed elsewhere.
    unsafe { ffi::tulghimo_farms_send(state.as_mut_ptr(), farm, summary.as_ptr(), summary.len()) }
}

/// Hands out a farm's running summary into `out`, and makes it blank in the state: the length written, or minus the refusal (20 or
/// 12; and 5 where the farm's slot holds no summary, which never comes of these calls).
pub fn farms_end_of_day(state: &mut [u8; FARMS_STATE], farm: u32, out: &mut [u8]) -> i64 {
    // SAFETY: the array has the bytes of a state, the slice as many as it is said to have, and neither is borrowed elsewhere.
    unsafe { ffi::tulghimo_farms_end_of_day(state.as_mut_ptr(), farm, out.as_mut_ptr(), out.len()) }
}
