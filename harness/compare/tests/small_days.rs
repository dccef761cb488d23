//! All small days: the proved library against the reference, every byte of every buffer; and each of the logs put to all other calls.
//! What L5 says sentence by sentence is put to the library by `document_02`.

use compare::{agree, calls, LentBytes};
use reference::gen::raw::MODES;
use std::collections::BTreeSet;
use tulghimo::raw::{self, LONGEST_SMALL_DAYS};

/// Outside 1 to 8: next to it, and those that would be inside if some of their bits were left out.
const OUTSIDE: [u32; 13] = [0, 9, 10, 255, 256, 257, 264, 65_537, 65_544, (1 << 24) + 8, 1 << 31, (1 << 31) + 1, u32::MAX];

/// The logs of an n, as the library writes them.
fn logs(n: u32) -> Vec<Vec<u8>> {
    let bytes = calls::small_days(n, LONGEST_SMALL_DAYS).expect("n from 1 to 8");
    bytes.chunks_exact(16 * n as usize).map(<[u8]>::to_vec).collect()
}

/// All of them, n from 1 to 8: 1 + 1 + 2 + 5 + 14 + 42 + 132 + 429.
fn all_logs() -> Vec<Vec<u8>> {
    let logs: Vec<Vec<u8>> = (1..=8).flat_map(logs).collect();
    assert_eq!(logs.len(), 626);
    logs
}

/// The records of a log, each by its length.
fn records(log: &[u8]) -> Vec<&[u8]> {
    let mut rest = log;
    let mut records = Vec::new();
    while !rest.is_empty() {
        let (record, later) = rest.split_at(usize::from(rest[0]));
        records.push(record);
        rest = later;
    }
    records
}

#[test]
fn every_n_around_the_length_of_its_result() {
    for n in 0..=9 {
        for capacity in [1, 15, 16, 17, 32, 54_911, 54_912, 54_913, 65_536] {
            agree::small_days(n, capacity);
        }
    }
}

#[test]
fn n_outside_1_to_8_gets_14_in_any_buffer() {
    for n in OUTSIDE {
        for capacity in [0, 1, 15, 16, 17, 54_911, 54_912, 54_913, 65_536] {
            let answers = agree::small_days(n, capacity);
            assert!(answers.iter().all(|&answer| answer == -14), "n = {n}: {answers:?}");
        }
    }
}

#[test]
fn buffers_of_every_length() {
    for n in 1..=4 {
        let expected = reference::calls::small_days(n, LONGEST_SMALL_DAYS).expect("n from 1 to 8");
        for capacity in 0..=expected.len() + 3 {
            let due = if capacity < expected.len() { Err(12) } else { Ok(expected.clone()) };
            LentBytes::new(capacity).check(&due, |out| raw::small_days(n, out));
        }
    }
}

#[test]
fn no_byte_behind_the_result_or_under_a_refusal() {
    // With two fillings: a byte that is written differs from one of them.
    for filling in [0x5a, 0xa5] {
        for (n, capacity, answer) in
            [(8, 54_911, -12), (8, 54_912, 54_912), (8, 54_913, 54_912), (7, 54_912, 14_784), (9, 54_912, -14), (0, 16, -14)]
        {
            let mut out = vec![filling; capacity];
            assert_eq!(raw::small_days(n, &mut out), answer, "n = {n}");
            let written = usize::try_from(answer).unwrap_or(0);
            assert!(out[written..].iter().all(|&byte| byte == filling), "n = {n}, {capacity} bytes");
        }
    }
}

#[test]
fn each_log_once() {
    let logs = all_logs();
    assert_eq!(logs.iter().collect::<BTreeSet<_>>().len(), 626);
}

#[test]
fn each_record_is_read() {
    for log in all_logs() {
        let mut rest = &log[..];
        while !rest.is_empty() {
            agree::read_record(rest);
            let [kind, length, _, value, floor, ceiling, batch] = calls::read_record(rest).expect("a readable record");
            let due = if kind == 1 { [10, 1, 0, 1_000_000_000, 0] } else { [6, 0, 0, 0, 0] };
            assert_eq!([length, value, floor, ceiling, batch], due);
            rest = &rest[length as usize..];
        }
    }
}

#[test]
fn each_log_by_the_calls_on_a_log() {
    for log in all_logs() {
        assert_eq!(agree::day(&log), [0]);
        for mode in MODES.map(u32::from) {
            // A whole log: no slopes.
            assert!(agree::summarise(&log, mode).contains(&24));
            let summary = calls::summarise(&log, mode, 24).expect("a well-formed log");
            assert_eq!(agree::finish(&summary), [0]);
            // A line of 27 bytes for each record, of 16 with its close.
            assert!(agree::sheet(&log, mode, 0).contains(&(log.len() as i64 / 16 * 27)));
            assert!(agree::sheet(&log, mode, 1).iter().all(|&answer| answer == -18));
        }
        agree::heaviest_line(&log);
        // The first record with the last, the last with itself, and the next, which is not there.
        let opened = log.len() as u32 / 16;
        assert_eq!(agree::common(&log, 0, opened - 1), [0]);
        assert_eq!(agree::common(&log, opened - 1, opened - 1), [i64::from(opened) - 1]);
        assert_eq!(agree::common(&log, 0, opened), [-19]);
        agree::read_table(&log);
        let table = calls::read_table(&log, log.len()).expect("a well-formed log");
        // A line of 14 bytes and, written again, a full open and a close for each record.
        assert_eq!(table.len(), log.len() / 16 * 14);
        assert!(agree::write_log(&table).contains(&(log.len() as i64 / 16 * 24)));
    }
}

/// The summaries of chunks in a mode.
fn summaries(chunks: &[Vec<u8>], mode: u32) -> Vec<Vec<u8>> {
    chunks.iter().map(|chunk| calls::summarise(chunk, mode, 1788).expect("a readable chunk")).collect()
}

/// A row by all calls that take one, and what they give: merged it is the summary of the log, and the work comes to its figure.
fn row_agrees(log: &[u8], row: &[Vec<u8>], mode: u32) {
    let lent = row.concat();
    agree::merge_row(&lent);
    agree::plan(&lent);
    agree::runs(&lent);
    agree::work(&lent);
    let whole = calls::summarise(log, mode, 24).expect("a well-formed log");
    assert_eq!(calls::merge_row(&lent, 24).as_ref(), Ok(&whole));
    assert_eq!(calls::work(&lent).map(|(figure, ..)| figure), calls::finish(&whole));
}

#[test]
fn each_log_cut_in_two() {
    for log in all_logs() {
        let records = records(&log);
        for cut in 0..=records.len() {
            for mode in MODES.map(u32::from) {
                let two = summaries(&[records[..cut].concat(), records[cut..].concat()], mode);
                agree::merge(&two[0], &two[1]);
                row_agrees(&log, &two, mode);
            }
        }
    }
}

#[test]
fn each_log_cut_after_each_record() {
    for log in all_logs() {
        let chunks: Vec<Vec<u8>> = records(&log).into_iter().map(<[u8]>::to_vec).collect();
        for mode in MODES.map(u32::from) {
            row_agrees(&log, &summaries(&chunks, mode), mode);
        }
    }
}

#[test]
fn one_after_another_they_are_no_log() {
    // From n = 3 on there is a second log, and the level before it is 0.
    for n in 3..=8 {
        let all = logs(n).concat();
        assert_eq!(agree::day(&all), [-8]);
        assert!(agree::read_table(&all).iter().all(|&answer| answer == -8));
        assert!(agree::heaviest_line(&all).iter().all(|&answer| answer == -8));
        assert_eq!(agree::common(&all, 0, n), [-8]);
        for mode in MODES.map(u32::from) {
            // Spoilt.
            assert!(agree::summarise(&all, mode).contains(&16));
            assert!(agree::sheet(&all, mode, 0).iter().all(|&answer| answer == -8));
        }
    }
}
