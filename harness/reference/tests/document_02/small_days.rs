//! L5, "All small days", sentence by sentence; logs are written out by hand. `crate::calls`
//! are the reference's here and the library's in `compare`, which has this file too.

use crate::calls::{day, read_record, read_table, small_days};
use reference::gen::logs::all_shapes;
use reference::gen::raw::{close, short};

/// "so n = 8 takes 54,912 bytes"
const AMPLE: usize = 54_912;

/// "the counts are 1, 1, 2, 5, 14, 42, 132, 429"
const COUNTS: [usize; 8] = [1, 1, 2, 5, 14, 42, 132, 429];

/// A short open record of value 1.
fn open(depth: u16) -> Vec<u8> {
    short(depth, 1)
}

/// The logs of an n, cut where the next begins: 10 bytes for each open and 6 for its close.
fn logs(n: u32) -> Vec<Vec<u8>> {
    let bytes = small_days(n, AMPLE).expect("n from 1 to 8");
    let length = 16 * n as usize;
    assert_eq!(bytes.len() % length, 0);
    bytes.chunks_exact(length).map(<[u8]>::to_vec).collect()
}

/// For each record of a log whether it is a close; an open has length 10.
fn closes(log: &[u8]) -> Vec<bool> {
    let mut rest = log;
    let mut closes = Vec::new();
    while !rest.is_empty() {
        closes.push(rest[2] == 2);
        rest = &rest[usize::from(rest[0])..];
    }
    closes
}

#[test]
fn n_outside_1_to_8_gets_14() {
    // Those from 256 on would be from 1 to 8 if their high bytes were left out.
    for n in [0, 9, 10, 16, 255, 256, 257, 264, 65_537, 65_544, 0x0100_0001, 0x8000_0000, 0x8000_0008, 0xffff_fff8, 0xffff_ffff] {
        // Before all else: whatever buffer is lent.
        for capacity in [0, 1, 15, 16, 32, AMPLE - 1, AMPLE, AMPLE + 1] {
            assert_eq!(small_days(n, capacity), Err(14), "n = {n}, {capacity} bytes");
        }
    }
}

#[test]
fn n_1_is_an_open_and_its_close() {
    let log = [10, 0, 1, 0, 0, 0, 1, 0, 0, 0, 6, 0, 2, 0, 0, 0];
    assert_eq!(small_days(1, 16), Ok(log.to_vec()));
}

#[test]
fn n_2_is_one_record_within_another() {
    let log = [
        10, 0, 1, 0, 0, 0, 1, 0, 0, 0, 10, 0, 1, 0, 1, 0, 1, 0, 0, 0, //
        6, 0, 2, 0, 1, 0, 6, 0, 2, 0, 0, 0,
    ];
    assert_eq!(small_days(2, 32), Ok(log.to_vec()));
}

#[test]
fn n_3_has_the_line_before_the_fork() {
    let line = [open(0), open(1), open(2), close(2), close(1), close(0)].concat();
    let fork = [open(0), open(1), close(1), open(1), close(1), close(0)].concat();
    assert_eq!(small_days(3, 96), Ok([line, fork].concat()));
}

#[test]
fn n_4_in_its_order() {
    let logs = [
        [open(0), open(1), open(2), open(3), close(3), close(2), close(1), close(0)],
        [open(0), open(1), open(2), close(2), open(2), close(2), close(1), close(0)],
        [open(0), open(1), open(2), close(2), close(1), open(1), close(1), close(0)],
        [open(0), open(1), close(1), open(1), open(2), close(2), close(1), close(0)],
        [open(0), open(1), close(1), open(1), close(1), open(1), close(1), close(0)],
    ];
    assert_eq!(small_days(4, 320), Ok(logs.concat().concat()));
}

#[test]
fn n_8_begins_and_ends_as_it_must() {
    let logs = logs(8);
    let down = |to: u16| (0..=to).flat_map(open).collect::<Vec<u8>>();
    let up = |from: u16| (0..=from).rev().flat_map(close).collect::<Vec<u8>>();
    // All in one line; then the last of them beside the one before it.
    assert_eq!(logs[0], [down(7), up(7)].concat());
    assert_eq!(logs[1], [down(6), close(6), open(6), up(6)].concat());
    // All within the first, the last but one around the last; then side by side.
    let pair = [open(1), close(1)].concat();
    assert_eq!(logs[427], [open(0), pair.repeat(5), open(1), open(2), close(2), close(1), close(0)].concat());
    assert_eq!(logs[428], [open(0), pair.repeat(7), close(0)].concat());
}

#[test]
fn as_many_logs_as_are_counted() {
    for (n, count) in (1..=8).zip(COUNTS) {
        assert_eq!(logs(n).len(), count, "n = {n}");
    }
    assert_eq!(logs(8).concat().len(), 54_912);
}

#[test]
fn a_short_buffer_gets_12() {
    // The lengths by hand: 16 bytes a record, n records a log.
    for (n, length) in (1..=8).zip([16, 32, 96, 320, 1_120, 4_032, 14_784, 54_912]) {
        // Too short by a byte, a close, a record, all but a log and all.
        for capacity in [0, 1, 15, 16 * n as usize - 1, length - 16, length - 10, length - 6, length - 1] {
            assert_eq!(small_days(n, capacity), Err(12), "n = {n}, {capacity} bytes");
        }
        let written = small_days(n, length).expect("a buffer that is just long enough");
        assert_eq!(written.len(), length);
        for capacity in [length + 1, length + 16, AMPLE + 1, 65_536] {
            assert_eq!(small_days(n, capacity).as_ref(), Ok(&written), "n = {n}, {capacity} bytes");
        }
    }
}

#[test]
fn each_comes_after_the_one_before() {
    for n in 1..=8 {
        // Where two first differ, the earlier has an open: false is before true.
        let logs: Vec<Vec<bool>> = logs(n).iter().map(|log| closes(log)).collect();
        assert!(logs.windows(2).all(|pair| pair[0] < pair[1]), "n = {n}");
    }
}

#[test]
fn how_many_begin_with_so_many_opens() {
    // Just k opens, then a close: (k - 1) / (15 - k) of the ways to choose 7 of 15 - k. The
    // more opens, the earlier a log comes.
    let counts = [(8, 1), (7, 6), (6, 20), (5, 48), (4, 90), (3, 132), (2, 132)];
    let expected: Vec<usize> = counts.into_iter().flat_map(|(opens, count)| vec![opens; count]).collect();
    let opens = |log: &Vec<u8>| closes(log).iter().take_while(|&&is_close| !is_close).count();
    assert_eq!(logs(8).iter().map(opens).collect::<Vec<_>>(), expected);
}

#[test]
fn none_is_missing() {
    // The same logs, put together record by record.
    for n in 1..=8 {
        let mut expected: Vec<Vec<bool>> =
            all_shapes(n as usize).into_iter().map(|shape| shape.iter().map(|is_open| !is_open).collect()).collect();
        expected.sort();
        let found: Vec<Vec<bool>> = logs(n).iter().map(|log| closes(log)).collect();
        assert_eq!(found, expected, "n = {n}");
    }
}

/// The records of a log, each as it is read, with the rest read as a chunk of its own.
fn read(log: &[u8]) -> Vec<[i64; 7]> {
    let mut rest = log;
    let mut records = Vec::new();
    while !rest.is_empty() {
        let fields = read_record(rest).expect("a readable record");
        rest = &rest[fields[1] as usize..];
        records.push(fields);
    }
    records
}

#[test]
fn short_open_records_each_value_1() {
    for n in 1..=8 {
        for log in logs(n) {
            let mut level = 0;
            for fields in read(&log) {
                // Kind, length, depth, value, the default floor and ceiling, no batch.
                if fields[0] == 1 {
                    assert_eq!(fields, [1, 10, level, 1, 0, 1_000_000_000, 0]);
                    level += 1;
                } else {
                    level -= 1;
                    assert_eq!(fields, [2, 6, level, 0, 0, 0, 0]);
                }
            }
            assert_eq!(level, 0);
        }
    }
}

#[test]
fn well_formed_with_n_opened_records() {
    for n in 1..=8 {
        for log in logs(n) {
            // Each record has one gram: net and eaten are n, the heaviest line is the longest,
            // and a stamp goes through 31 once for each level.
            let depths: Vec<u32> = read(&log).iter().filter(|fields| fields[0] == 1).map(|fields| fields[2] as u32).collect();
            let longest = i64::from(*depths.iter().max().expect("a record")) + 1;
            let stamp: i64 = depths.iter().map(|&depth| 31i64.pow(depth)).sum();
            assert_eq!(day(&log), Ok([n.into(), longest, n.into(), stamp % (1 << 32)]));
            assert_eq!(read_table(&log, AMPLE).map(|table| table.len()), Ok(14 * n as usize));
        }
    }
}

#[test]
fn the_day_of_the_first_and_the_last() {
    let logs = logs(8);
    // 31^8 less 1, divided by 30, is 28,429,701,248; less 6 × 2^32. Then 1 + 7 × 31.
    assert_eq!(day(&logs[0]), Ok([8, 8, 8, 2_659_897_472]));
    assert_eq!(day(&logs[428]), Ok([8, 2, 8, 218]));
    // One after another they are no log: the level between is 0.
    assert_eq!(day(&[&logs[0][..], &logs[1]].concat()), Err(8));
}
