//! The calls of documents 01 and 02, as functions of the lent bytes: the result or the
//! number of the refusal. A buffer is only its capacity here: a refusal leaves it
//! untouched, a result is written at its front and "bytes after it stay". A state is
//! lent as it is, and a refusal leaves every byte of it.

use crate::backwards;
use crate::common::{common_of, question_19};
use crate::farms::{self, question_20, question_21, FARMS_STATE};
use crate::gate::{
    question_1, question_12, question_2, question_3, question_4, question_5, question_6, questions_7_to_11_of_log,
    questions_7_to_11_of_row,
};
use crate::heaviest_line::{encode_numbers, line_of};
use crate::layout::encode;
use crate::log::opened;
use crate::merge;
use crate::mode::{stored, Mode};
use crate::plan::{encode_plan, plan_by_levels};
use crate::record::{encode_all, read_first, First, Record, CLOSE, OPEN};
use crate::row;
use crate::run::{encode_run, run_of};
use crate::sheet::{lines_of, question_18};
use crate::small_days::{self, all_logs, encode_logs};
use crate::summary::{self, summary_of, Summary};
use crate::table::{self, encode_table, log_of, table_of};
use crate::tree::log_figure;
use crate::work;

/// "read the first record of a chunk (answering kind, length, depth, value, floor
/// and ceiling, the last three 0 for a close; an empty chunk gets 3; later bytes, and
/// how many there are, are not judged)". "Reading puts 3". Document 02, L2: "Reading a
/// record answers the batch too, 0 where the record has none".
pub fn read_record(chunk: &[u8]) -> Result<[i64; 7], u8> {
    let First { record, length, batch } = read_first(chunk).ok_or(3)?;
    let (length, depth) = (length as i64, record.depth() as i64);
    let (kind, [value, floor, ceiling]) = match record {
        Record::Open(open) => (OPEN as i64, [open.value, open.floor, open.ceiling]),
        Record::Close { .. } => (CLOSE as i64, [0, 0, 0]),
    };
    Ok([kind, length, depth, value, floor, ceiling, batch.unwrap_or(0)])
}

/// "summarise a chunk in a mode": "summarise 1, 2, 3 and 12".
pub fn summarise(chunk: &[u8], mode: u32, capacity: usize) -> Result<Vec<u8>, u8> {
    let mode = question_1(mode)?;
    question_2(chunk)?;
    let records = question_3(chunk)?;
    question_12(encode(&summary_of(mode, &records)), capacity)
}

/// "merge two summaries": "merge 5, 6 and 12".
pub fn merge(left: &[u8], right: &[u8], capacity: usize) -> Result<Vec<u8>, u8> {
    let two = question_5(&[left, right])?;
    question_6(&two)?;
    question_12(encode(&merge::merge(&two[0], &two[1])), capacity)
}

/// "merge a row": "merging a row 4, 5, 6 and 12".
pub fn merge_row(row: &[u8], capacity: usize) -> Result<Vec<u8>, u8> {
    let summaries = questions_4_to_6(row)?;
    question_12(encode(&row::merge_row(&summaries)), capacity)
}

/// "finish one summary, answering the figure as a signed 64-bit number": "finish 5
/// and 7 to 11".
pub fn finish(summary: &[u8]) -> Result<i64, u8> {
    let one = question_5(&[summary])?;
    summary::finish(&one[0]).map(stored)
}

/// "from a row, the plan": "plan and runs 4 to 12".
pub fn plan(row: &[u8], capacity: usize) -> Result<Vec<u8>, u8> {
    let summaries = questions_4_to_6(row)?;
    questions_7_to_11_of_row(&summaries)?;
    question_12(encode_plan(&plan_by_levels(&summaries)), capacity)
}

/// "the runs (one for each line, in plan order)": "plan and runs 4 to 12".
pub fn runs(row: &[u8], capacity: usize) -> Result<Vec<u8>, u8> {
    let summaries = questions_4_to_6(row)?;
    questions_7_to_11_of_row(&summaries)?;
    let mut out = Vec::new();
    for line in plan_by_levels(&summaries) {
        out.extend(encode_run(&run_of(&summaries, &line)));
    }
    question_12(out, capacity)
}

/// "and the work along the plan": "the work along the plan 4 to 11". Figure, joins
/// and levels.
pub fn work(row: &[u8]) -> Result<(i64, i64, i64), u8> {
    let summaries = questions_4_to_6(row)?;
    questions_7_to_11_of_row(&summaries)?;
    let work = work::work(&summaries);
    Ok((stored(work.figure), work.joins as i64, work.levels as i64))
}

/// The day's figures, "net, heaviest, eaten and stamp", where eaten is mode 5 ("The day
/// program prints it third"): "the day program, and any later call on a whole log, 2, 3
/// and 7 to 11".
pub fn day(log: &[u8]) -> Result<[i64; 4], u8> {
    let records = whole_log(log)?;
    Ok(Mode::ALL.map(|mode| log_figure(mode, &records)))
}

/// What the day program prints: the figures "with one space between and a newline";
/// "For a refusal it prints `refused `, the number and a newline."
pub fn day_text(log: &[u8]) -> Vec<u8> {
    let text = match day(log) {
        Ok([net, heaviest, eaten, stamp]) => format!("{net} {heaviest} {eaten} {stamp}\n"),
        Err(number) => format!("refused {number}\n"),
    };
    text.into_bytes()
}

/// Document 02, L1: "We need the log written from it". 2 and 3; "13, after 3"; 10; 12.
pub fn write_log(table: &[u8], capacity: usize) -> Result<Vec<u8>, u8> {
    table::question_2(table)?;
    let lines = table::question_3(table)?;
    table::question_13(&lines)?;
    table::question_10(&lines)?;
    question_12(encode_all(&log_of(&lines)), capacity)
}

/// Document 02, L1: "Reading back puts 2, 3, 7 to 11 and 12 as in document 01 and has no
/// limit of lines."
pub fn read_table(log: &[u8], capacity: usize) -> Result<Vec<u8>, u8> {
    let records = whole_log(log)?;
    question_12(encode_table(&table_of(&records)), capacity)
}

/// Document 02, L5: "write all well-formed logs with n opened records". "14, before all
/// else"; 12.
pub fn small_days(n: u32, capacity: usize) -> Result<Vec<u8>, u8> {
    let n = small_days::question_14(n)?;
    question_12(encode_logs(&all_logs(n)), capacity)
}

/// Document 02, L6: "From a run and an outer figure y, give the one inner figure x that
/// leads to it". "15 first", "16 next", "17 last".
pub fn backwards(run: &[u8], y: i64) -> Result<i64, u8> {
    let run = backwards::question_15(run)?;
    backwards::question_16(&run)?;
    backwards::question_17(&run, y)?;
    Ok(backwards::inner(&run, y))
}

/// Document 02, L7: "Name the records that make it: for a well-formed log of one chunk".
/// "Faults get their numbers as at finish; a short buffer 12."
pub fn heaviest_line(log: &[u8], capacity: usize) -> Result<Vec<u8>, u8> {
    let records = whole_log(log)?;
    question_12(encode_numbers(&line_of(&records)), capacity)
}

/// Document 02, L9: "For a well-formed log of one chunk, a mode and a page". 1; the faults; "18,
/// after the log's faults and before 12"; 12.
pub fn sheet(log: &[u8], mode: u32, page: u32, capacity: usize) -> Result<Vec<u8>, u8> {
    let mode = question_1(mode)?;
    let records = whole_log(log)?;
    let lines = lines_of(mode, &records);
    let page = question_18(&lines, page)?;
    question_12(page.concat().into_bytes(), capacity)
}

/// Document 02, L10: "For a well-formed log of one chunk and two record numbers, give the deepest
/// record that is each of them or holds it." The faults; "19, after the log's faults".
pub fn common(log: &[u8], a: u32, b: u32) -> Result<u32, u8> {
    let records = whole_log(log)?;
    question_19(opened(&records), [a, b])?;
    Ok(common_of(&records, [a, b]))
}

/// Document 02, L11: "Each farm has a running summary, blank at first". 1.
pub fn farms_fresh(mode: u32, state: &mut [u8; FARMS_STATE]) -> Result<(), u8> {
    *state = farms::fresh(question_1(mode)?);
    Ok(())
}

/// Document 02, L11: "a summary sent for a farm is merged at its right end, and the farm is told
/// only that it was taken". "20 first"; 5 and 6, of what the farm has and what is sent; "21 after
/// 6".
pub fn farms_send(state: &mut [u8; FARMS_STATE], farm: u32, summary: &[u8]) -> Result<(), u8> {
    let farm = question_20(farm)?;
    let both = question_5(&[farms::held(state)[farm], summary])?;
    question_6(&both)?;
    let then = farms::with_running(state, farm, &merge::merge(&both[0], &both[1]));
    question_21(&then)?;
    *state = then;
    Ok(())
}

/// Document 02, L11: "A farm's end of day hands out its summary and makes it blank". "20 first"; 5,
/// of what the farm has, which in a run never comes; "a 12 there leaves the farm as it is".
pub fn farms_end_of_day(state: &mut [u8; FARMS_STATE], farm: u32, capacity: usize) -> Result<Vec<u8>, u8> {
    let farm = question_20(farm)?;
    let one = question_5(&[farms::held(state)[farm]])?;
    let handed_out = question_12(encode(&one[0]), capacity)?;
    *state = farms::with_running(state, farm, &farms::blank(one[0].mode));
    Ok(handed_out)
}

/// The records of a whole log, by questions 2, 3 and 7 to 11.
fn whole_log(log: &[u8]) -> Result<Vec<Record>, u8> {
    question_2(log)?;
    let records = question_3(log)?;
    questions_7_to_11_of_log(&records)?;
    Ok(records)
}

/// The summaries of a row, by questions 4, 5 and 6.
fn questions_4_to_6(row: &[u8]) -> Result<Vec<Summary>, u8> {
    let pieces = question_4(row)?;
    let summaries = question_5(&pieces)?;
    question_6(&summaries)?;
    Ok(summaries)
}
