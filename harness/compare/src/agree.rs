//! A function for each call: the proved library and the reference must agree on the answer and on every lent byte, whatever the length
//! of the buffer, and on every byte of a state. It gives the library's answers, one for each time that it was called. Three functions
//! more make all calls that take a chunk, or a row, and any call of a valley station. The last three ask the library alone: of chunks
//! that differ in batches only, of rows of which some summaries were sent before, and of two runs in which a farm's calls are the same.
//! All panic on a difference.

use crate::calls as library;
use crate::{capacities, numbers_outcome, LentBytes, LentNumbers};
use reference::calls;
use reference::farms::FARMS_STATE;
use reference::gate::{question_12, LONGEST_CHUNK};
use reference::gen::raw::{in_mode, MODES};
use reference::ledger::{Call, Told};
use std::collections::BTreeSet;
use std::fmt::Debug;
use tulghimo::raw;

/// As long as the longest result: the log of 2,730 lines.
const AMPLE: usize = 65_520;

/// A call that writes bytes, with buffers around the length of its result.
fn bytes(ample: Result<Vec<u8>, u8>, call: impl Fn(&mut [u8]) -> i64) -> Vec<i64> {
    in_buffers(&ample, &capacities(&ample), call)
}

/// A call that writes bytes, with buffers of these lengths. It puts question 12 last, so the reference is asked once.
fn in_buffers(ample: &Result<Vec<u8>, u8>, lengths: &[usize], call: impl Fn(&mut [u8]) -> i64) -> Vec<i64> {
    let agree = |&capacity: &usize| {
        let expected = ample.clone().and_then(|result| question_12(result, capacity));
        LentBytes::new(capacity).check(&expected, &call)
    };
    lengths.iter().map(agree).collect()
}

/// A call that writes `N` numbers.
fn numbers<const N: usize>(expected: Result<[i64; N], u8>, call: impl Fn(&mut [i64; N]) -> i64) -> Vec<i64> {
    let outcome = LentNumbers::default().lend(call);
    assert_eq!(outcome, numbers_outcome(expected));
    vec![outcome.0]
}

pub fn read_record(chunk: &[u8]) -> Vec<i64> {
    numbers(calls::read_record(chunk), |fields| raw::read_record(chunk, fields))
}

pub fn summarise(chunk: &[u8], mode: u32) -> Vec<i64> {
    bytes(calls::summarise(chunk, mode, AMPLE), |out| raw::summarise(chunk, mode, out))
}

pub fn merge(left: &[u8], right: &[u8]) -> Vec<i64> {
    bytes(calls::merge(left, right, AMPLE), |out| raw::merge(left, right, out))
}

pub fn merge_row(row: &[u8]) -> Vec<i64> {
    bytes(calls::merge_row(row, AMPLE), |out| raw::merge_row(row, out))
}

pub fn plan(row: &[u8]) -> Vec<i64> {
    bytes(calls::plan(row, AMPLE), |out| raw::plan(row, out))
}

pub fn runs(row: &[u8]) -> Vec<i64> {
    bytes(calls::runs(row, AMPLE), |out| raw::runs(row, out))
}

pub fn work(row: &[u8]) -> Vec<i64> {
    let expected = calls::work(row).map(|(figure, joins, levels)| [figure, joins, levels]);
    numbers(expected, |work| raw::work(row, work))
}

pub fn finish(summary: &[u8]) -> Vec<i64> {
    numbers(calls::finish(summary).map(|figure| [figure]), |figure| raw::finish(summary, figure))
}

pub fn day(log: &[u8]) -> Vec<i64> {
    numbers(calls::day(log), |figures| raw::day(log, figures))
}

pub fn write_log(table: &[u8]) -> Vec<i64> {
    bytes(calls::write_log(table, AMPLE), |out| raw::write_log(table, out))
}

pub fn read_table(log: &[u8]) -> Vec<i64> {
    bytes(calls::read_table(log, AMPLE), |out| raw::read_table(log, out))
}

/// With buffers around the length of the result, and with one of the given length.
pub fn small_days(n: u32, capacity: usize) -> Vec<i64> {
    let ample = calls::small_days(n, AMPLE);
    let lengths = [capacities(&ample), vec![capacity]].concat();
    in_buffers(&ample, &lengths, |out| raw::small_days(n, out))
}

pub fn backwards(run: &[u8], y: i64) -> Vec<i64> {
    numbers(calls::backwards(run, y).map(|x| [x]), |x| raw::backwards(run, y, x))
}

pub fn heaviest_line(log: &[u8]) -> Vec<i64> {
    bytes(calls::heaviest_line(log, AMPLE), |out| raw::heaviest_line(log, out))
}

pub fn sheet(log: &[u8], mode: u32, page: u32) -> Vec<i64> {
    bytes(calls::sheet(log, mode, page, AMPLE), |out| raw::sheet(log, mode, page, out))
}

pub fn common(log: &[u8], a: u32, b: u32) -> Vec<i64> {
    let expected = calls::common(log, a, b).map_or_else(|number| -i64::from(number), i64::from);
    let answer = raw::common(log, a, b);
    assert_eq!(answer, expected, "the library's and the reference's, of the records {a} and {b}");
    vec![answer]
}

/// The state of a valley station.
pub type State = [u8; FARMS_STATE];

/// Both states are the same, byte for byte.
fn assert_same(library: &State, reference: &State) {
    let first = || (0..FARMS_STATE).find(|&place| library[place] != reference[place]);
    assert!(library == reference, "the library's state and the reference's, from byte {:?} on", first());
}

pub fn farms_fresh(mode: u32, state: &mut State) -> Vec<i64> {
    let mut due = *state;
    let expected = calls::farms_fresh(mode, &mut due);
    let told = library::farms_fresh(mode, state);
    assert_eq!(told, expected, "the library's and the reference's, in mode {mode}");
    assert_same(state, &due);
    vec![status(told)]
}

pub fn farms_send(state: &mut State, farm: u32, summary: &[u8]) -> Vec<i64> {
    let mut due = *state;
    let expected = calls::farms_send(&mut due, farm, summary);
    let told = library::farms_send(state, farm, summary);
    assert_eq!(told, expected, "the library's and the reference's, of farm {farm}");
    assert_same(state, &due);
    vec![status(told)]
}

/// With buffers around the length of the summary, each on the state as it was; and last with one of the given length, by which the
/// state is left.
pub fn farms_end_of_day(state: &mut State, farm: u32, capacity: usize) -> Vec<i64> {
    let before = *state;
    let mut ended = before;
    let ample = calls::farms_end_of_day(&mut ended, farm, AMPLE);
    let mut agree = |capacity: usize| {
        *state = before;
        let expected = ample.clone().and_then(|summary| question_12(summary, capacity));
        let told = library::farms_end_of_day(state, farm, capacity);
        assert_eq!(told, expected, "the library's and the reference's, of farm {farm}, with {capacity} bytes lent");
        assert_same(state, if told.is_ok() { &ended } else { &before });
        told.map_or_else(|number| -i64::from(number), |summary| summary.len() as i64)
    };
    capacities(&ample).into_iter().chain([capacity]).map(&mut agree).collect()
}

/// Any call of a valley station but fresh. The last answer is that of the buffer that the call lends.
pub fn farms_call(state: &mut State, call: &Call) -> Vec<i64> {
    match call {
        Call::Send { farm, summary } => farms_send(state, *farm, summary),
        Call::EndOfDay { farm, capacity } => farms_end_of_day(state, *farm, *capacity),
    }
}

/// All calls that take a chunk: summarise in each mode, of the sheet the first two pages in each, and what record 1 has in common with
/// its neighbours.
pub fn every_call_on_chunk(chunk: &[u8]) {
    read_record(chunk);
    for mode in MODES.map(u32::from) {
        summarise(chunk, mode);
        sheet(chunk, mode, 0);
        sheet(chunk, mode, 1);
    }
    day(chunk);
    read_table(chunk);
    heaviest_line(chunk);
    common(chunk, 1, 0);
    common(chunk, 1, 2);
}

/// Neighbours by every call that takes a row; two of them by merge as well.
pub fn every_call_on_row(row: &[Vec<u8>]) -> Vec<i64> {
    let lent = row.concat();
    let mut answers = [merge_row(&lent), plan(&lent), runs(&lent), work(&lent)].concat();
    if let [left, right] = row {
        answers.extend(merge(left, right));
    }
    answers
}

/// 0 for an answer, or minus its refusal.
fn status<T>(answer: Result<T, u8>) -> i64 {
    answer.map_or_else(|number| -i64::from(number), |_| 0)
}

/// What the library says of two chunks, which must be the same: 0, or minus its refusal.
fn same<T: Debug + PartialEq>(call: impl Fn(&[u8]) -> Result<T, u8>, [one, other]: [&[u8]; 2]) -> i64 {
    let answer = call(one);
    assert_eq!(answer, call(other), "of two chunks that differ in batches only");
    status(answer)
}

/// The library alone, on two chunks that differ in batches only: it reads the same but for length and batch, and where both are short
/// enough to be taken, every other call answers and writes the same. Gives one answer for each call.
pub fn batches_only(one: &[u8], other: &[u8], mode: u32) -> Vec<i64> {
    let both = [one, other];
    let but_for_batch = |[kind, _, depth, value, floor, ceiling, _]: [i64; 7]| [kind, depth, value, floor, ceiling];
    let read = same(|chunk| library::read_record(chunk).map(but_for_batch), both);
    if both.iter().any(|chunk| chunk.len() > LONGEST_CHUNK) {
        return vec![read];
    }
    let summary = same(|chunk| library::summarise(chunk, mode, AMPLE), both);
    let day = same(library::day, both);
    let table = same(|chunk| library::read_table(chunk, AMPLE), both);
    let line = same(|chunk| library::heaviest_line(chunk, AMPLE), both);
    let sheet = same(|chunk| library::sheet(chunk, mode, 0, AMPLE), both);
    let common = same(|chunk| library::common(chunk, 1, 2), both);
    vec![read, summary, day, table, line, sheet, common]
}

/// The library alone, on the row of a log's chunks of which some were summarised while short records had the old floor; in the log
/// each record has the floor with which it was summarised. Merged they are the log's summary, byte for byte, and finish and the work along
/// the plan come to its figure by the reference's recursion. Gives the answers of these two.
pub fn sent_before(log: &[u8], row: &[u8], mode: u16) -> Vec<i64> {
    let due = calls::day(log).map(|figures| in_mode(mode, figures));
    let merged = library::merge_row(row, AMPLE);
    assert_eq!(merged, library::summarise(log, mode.into(), AMPLE), "merged, and summarised in one");
    let finished = merged.and_then(|summary| library::finish(&summary));
    let worked = library::work(row).map(|(figure, ..)| figure);
    assert_eq!([finished, worked], [due; 2], "finished and worked along the plan, and by the recursion");
    vec![status(finished), status(worked)]
}

/// What each call of a run is told by the library.
fn told(mode: u32, run: &[Call]) -> Vec<(u32, Told)> {
    let mut state = [0; FARMS_STATE];
    assert_eq!(library::farms_fresh(mode, &mut state), Ok(()), "a mode in use");
    let mut tell = |call: &Call| match call {
        Call::Send { farm, summary } => library::farms_send(&mut state, *farm, summary).map(|()| Vec::new()),
        Call::EndOfDay { farm, capacity } => library::farms_end_of_day(&mut state, *farm, *capacity),
    };
    run.iter().map(|call| (call.farm(), tell(call))).collect()
}

/// The library alone, on two runs in one mode: a farm whose calls are the same in both, in the same order, is told the same until a send
/// of its own gets 21 in just one of them. Gives what such farms are told in both.
pub fn two_runs(mode: u32, runs: [&[Call]; 2]) -> Vec<i64> {
    let told = runs.map(|run| told(mode, run));
    let farms: BTreeSet<u32> = runs.iter().flat_map(|run| run.iter().map(Call::farm)).collect();
    let mut answers = Vec::new();
    for farm in farms {
        let [one, other] = runs.map(|run| run.iter().filter(|call| call.farm() == farm).collect::<Vec<_>>());
        if one == other {
            let [first, second] = [0, 1].map(|which| told[which].iter().filter(|(of, _)| *of == farm).map(|(_, told)| told));
            let both: Vec<[&Told; 2]> = first.zip(second).map(|(first, second)| [first, second]).collect();
            if let Some((place, both)) = both.iter().enumerate().find(|(_, [first, second])| first != second) {
                let parts = *both == [&Err(21), &Ok(Vec::new())] || *both == [&Ok(Vec::new()), &Err(21)];
                let sends = matches!(one[place], Call::Send { .. });
                assert!(parts && sends, "farm {farm} is told {both:?} at its call {place}");
            }
            answers.extend(both.into_iter().flatten().map(|told| status(told.clone())));
        }
    }
    answers
}
