//! The library's calls with the signatures of [`reference::calls`], so that a test of what the documents say can be put to both. Each
//! lends guarded buffers, and a state between guards; a byte that the answer does not account for is a panic.

use crate::{lend_state, LentBytes, LentNumbers, UNTOUCHED};
use reference::farms::FARMS_STATE;
use std::io::Write;
use std::path::{Path, PathBuf};
use std::process::{Command, Stdio};
use tulghimo::raw;

/// The numbers that a call stored, or its refusal, which must leave them as they were.
fn numbers<const N: usize>(call: impl FnOnce(&mut [i64; N]) -> i64) -> Result<[i64; N], u8> {
    let (answer, stored) = LentNumbers::default().lend(call);
    if answer == 0 {
        return Ok(stored);
    }
    assert_eq!(stored, [UNTOUCHED; N], "numbers stored beside the answer {answer}");
    Err(u8::try_from(-answer).expect("0 or a refusal"))
}

pub fn read_record(chunk: &[u8]) -> Result<[i64; 7], u8> {
    numbers(|fields| raw::read_record(chunk, fields))
}

pub fn summarise(chunk: &[u8], mode: u32, capacity: usize) -> Result<Vec<u8>, u8> {
    LentBytes::new(capacity).lend(|out| raw::summarise(chunk, mode, out))
}

pub fn merge(left: &[u8], right: &[u8], capacity: usize) -> Result<Vec<u8>, u8> {
    LentBytes::new(capacity).lend(|out| raw::merge(left, right, out))
}

pub fn merge_row(row: &[u8], capacity: usize) -> Result<Vec<u8>, u8> {
    LentBytes::new(capacity).lend(|out| raw::merge_row(row, out))
}

pub fn finish(summary: &[u8]) -> Result<i64, u8> {
    numbers(|figure| raw::finish(summary, figure)).map(|[figure]| figure)
}

pub fn plan(row: &[u8], capacity: usize) -> Result<Vec<u8>, u8> {
    LentBytes::new(capacity).lend(|out| raw::plan(row, out))
}

pub fn runs(row: &[u8], capacity: usize) -> Result<Vec<u8>, u8> {
    LentBytes::new(capacity).lend(|out| raw::runs(row, out))
}

/// Figure, joins and levels.
pub fn work(row: &[u8]) -> Result<(i64, i64, i64), u8> {
    numbers(|totals| raw::work(row, totals)).map(|[figure, joins, levels]| (figure, joins, levels))
}

pub fn day(log: &[u8]) -> Result<[i64; 4], u8> {
    numbers(|figures| raw::day(log, figures))
}

pub fn write_log(table: &[u8], capacity: usize) -> Result<Vec<u8>, u8> {
    LentBytes::new(capacity).lend(|out| raw::write_log(table, out))
}

pub fn read_table(log: &[u8], capacity: usize) -> Result<Vec<u8>, u8> {
    LentBytes::new(capacity).lend(|out| raw::read_table(log, out))
}

pub fn small_days(n: u32, capacity: usize) -> Result<Vec<u8>, u8> {
    LentBytes::new(capacity).lend(|out| raw::small_days(n, out))
}

pub fn backwards(run: &[u8], y: i64) -> Result<i64, u8> {
    numbers(|x| raw::backwards(run, y, x)).map(|[x]| x)
}

pub fn heaviest_line(log: &[u8], capacity: usize) -> Result<Vec<u8>, u8> {
    LentBytes::new(capacity).lend(|out| raw::heaviest_line(log, out))
}

pub fn sheet(log: &[u8], mode: u32, page: u32, capacity: usize) -> Result<Vec<u8>, u8> {
    LentBytes::new(capacity).lend(|out| raw::sheet(log, mode, page, out))
}

pub fn common(log: &[u8], a: u32, b: u32) -> Result<u32, u8> {
    let answer = raw::common(log, a, b);
    u32::try_from(answer).map_err(|_| u8::try_from(-answer).expect("a record's number or a refusal"))
}

/// 0 for a call that was taken, or its refusal.
fn taken(answer: i64) -> Result<(), u8> {
    if answer == 0 {
        return Ok(());
    }
    Err(u8::try_from(-answer).expect("0 or a refusal"))
}

pub fn farms_fresh(mode: u32, state: &mut [u8; FARMS_STATE]) -> Result<(), u8> {
    taken(lend_state(state, 0, |state| raw::farms_fresh(mode, state)))
}

pub fn farms_send(state: &mut [u8; FARMS_STATE], farm: u32, summary: &[u8]) -> Result<(), u8> {
    taken(lend_state(state, 0, |state| raw::farms_send(state, farm, summary)))
}

pub fn farms_end_of_day(state: &mut [u8; FARMS_STATE], farm: u32, capacity: usize) -> Result<Vec<u8>, u8> {
    LentBytes::new(capacity).lend(|out| lend_state(state, 0, |state| raw::farms_end_of_day(state, farm, out)))
}

/// The day program, as `./day` has it made.
pub fn program() -> PathBuf {
    Path::new(env!("CARGO_MANIFEST_DIR")).join("../../target/bin/day_program")
}

/// What the day program prints for a log. It must not complain.
pub fn day_text(log: &[u8]) -> Vec<u8> {
    let mut child = Command::new(program())
        .stdin(Stdio::piped())
        .stdout(Stdio::piped())
        .stderr(Stdio::piped())
        .spawn()
        .expect("target/bin/day_program, as `./day` has it made");
    let mut stdin = child.stdin.take().expect("standard input");
    // The program reads 65,537 bytes at most, so that the rest of a longer input may find nobody there.
    let _ = stdin.write_all(log);
    drop(stdin);
    let output = child.wait_with_output().expect("the program ends");
    assert!(output.stderr.is_empty(), "{}", String::from_utf8_lossy(&output.stderr));
    output.stdout
}
