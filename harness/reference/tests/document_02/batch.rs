//! L2, "Pellet batch in the open record", sentence by sentence; records and logs are
//! written out by hand. `crate::calls` are the reference's here and the library's in
//! `compare`, which has this file too.

use crate::calls::{day, day_text, merge, plan, read_record, read_table, runs, summarise, work, write_log};
use reference::gen::logs::BATCHES;
use reference::gen::raw::{batched, close, in_mode, line, log_d, open, run, run_length, short, words, Hill, MODES};

/// As long as the longest result: no log written is longer, and no table read.
const AMPLE: usize = 65_520;
const LEAST: i32 = -1_000_000_000;
const GREATEST: i32 = 1_000_000_000;

/// Neither reading nor summarise takes the bytes.
fn assert_unreadable(bytes: &[u8]) {
    assert_eq!(read_record(bytes), Err(3), "{bytes:?}");
    assert_eq!(summarise(bytes, 1, AMPLE), Err(3), "{bytes:?}");
}

#[test]
fn the_18_bytes_then_the_batch() {
    // Length, kind, depth, value, floor, ceiling, batch: 0x12345678 is 305,419,896.
    let record = [22, 0, 1, 0, 3, 0, 1, 0, 0, 0, 0xfe, 0xff, 0xff, 0xff, 7, 0, 0, 0, 0x78, 0x56, 0x34, 0x12];
    assert_eq!(read_record(&record), Ok([1, 22, 3, 1, -2, 7, 305_419_896]));
    assert_eq!(record.to_vec(), batched(3, 1, -2, 7, 305_419_896));
}

#[test]
fn a_batch_is_unsigned() {
    let batches = [
        ([0, 0, 0, 0], 0),
        ([1, 0, 0, 0], 1),
        ([0, 1, 0, 0], 256),
        ([0, 0, 1, 0], 65_536),
        ([0, 0, 0, 1], 16_777_216),
        ([0xff, 0xff, 0xff, 0x7f], 2_147_483_647),
        ([0, 0, 0, 0x80], 2_147_483_648),
        ([0xff, 0xff, 0xff, 0xff], 4_294_967_295),
    ];
    for (bytes, batch) in batches {
        let record = [&batched(9, -5, -6, -4, 0)[..18], &bytes].concat();
        assert_eq!(read_record(&record), Ok([1, 22, 9, -5, -6, -4, batch]));
    }
}

#[test]
fn zero_where_the_record_has_none() {
    let records = [
        (open(3, 1, -2, 7), [1, 18, 3, 1, -2, 7, 0]),
        (short(3, 1), [1, 10, 3, 1, 0, GREATEST.into(), 0]),
        (close(3), [2, 6, 3, 0, 0, 0, 0]),
    ];
    for (record, fields) in records {
        // Whatever stands where a batch would be, or after the record.
        for later in [vec![], vec![0xff; 4], vec![0xff; 70_000], batched(4, 0, 0, 0, u32::MAX), close(3)] {
            assert_eq!(read_record(&[&record[..], &later].concat()), Ok(fields));
        }
    }
}

#[test]
fn later_bytes_are_not_judged() {
    let record = batched(3, 1, -2, 7, 8);
    for later in [vec![0xff], close(64), vec![0xff; 70_000], batched(4, 0, 0, 0, 9)] {
        assert_eq!(read_record(&[&record[..], &later].concat()), Ok([1, 22, 3, 1, -2, 7, 8]));
    }
}

#[test]
fn all_22_bytes_are_there() {
    for batch in BATCHES {
        let record = batched(0, 1, 0, 9, batch);
        for length in 1..22 {
            assert_unreadable(&record[..length]);
        }
        assert_eq!(read_record(&record), Ok([1, 22, 0, 1, 0, 9, batch.into()]));
        // Within a log, where the next record has the missing bytes.
        for length in 18..22 {
            let log = [&record[..length], &close(0)].concat();
            assert_eq!(day(&log), Err(3));
            assert_eq!(read_table(&log, AMPLE), Err(3));
        }
        assert_eq!(day(&[record, close(0)].concat()), Ok([1, 1, 1, 1]));
    }
}

#[test]
fn length_22_suits_kind_1_alone() {
    let record = batched(0, 1, 0, 9, 5);
    for kind in [0u16, 2, 3, 16, 18, 257, 258, 0x8001, 0xffff] {
        assert_unreadable(&[words(&[22, kind]), record[4..].to_vec()].concat());
    }
    // A close of this length, where a close is due.
    let long_close = [words(&[22, 2, 0]), vec![0; 16]].concat();
    assert_eq!(day(&[short(0, 1), long_close].concat()), Err(3));
    // Lengths beside it, and such as would be 22 if one of their bytes were left out.
    for length in [19u16, 20, 21, 23, 24, 26, 0x0116, 0x1600, 0x1616] {
        let mut long = [words(&[length]), record[2..].to_vec()].concat();
        long.resize(0x1616, 0);
        assert_eq!(read_record(&long), Err(3), "length {length}");
    }
}

#[test]
fn the_ranges_are_those_of_length_18() {
    for batch in BATCHES {
        assert_eq!(read_record(&batched(63, 1, 2, 3, batch)), Ok([1, 22, 63, 1, 2, 3, batch.into()]));
        for depth in [64, 65, 256, 319, 0xffff] {
            assert_unreadable(&batched(depth, 1, 2, 3, batch));
        }
        for near in [LEAST, LEAST + 1, -1, 0, 1, GREATEST - 1, GREATEST] {
            let as_read = i64::from(near);
            let fields = [1, 22, 1, as_read, as_read, as_read, batch.into()];
            assert_eq!(read_record(&batched(1, near, near, near, batch)), Ok(fields), "floor equal to ceiling");
        }
        for far in [i32::MIN, LEAST - 1, GREATEST + 1, i32::MAX] {
            assert_unreadable(&batched(1, far, LEAST, GREATEST, batch));
            assert_unreadable(&batched(1, 0, far, GREATEST, batch));
            assert_unreadable(&batched(1, 0, LEAST, far, batch));
        }
        assert_unreadable(&batched(1, 0, 8, 7, batch));
    }
}

#[test]
fn a_batch_that_looks_like_a_record() {
    // Its bytes 10, 0, 1, 0 begin a short open. Were the record taken as one of length 18,
    // the close would be read as the rest of that open, at depth 6, and no byte be left over.
    for batch in [10 + 65_536, 6 + 2 * 65_536, 18 + 65_536, 22 + 65_536] {
        let chunk = [batched(5, 7, 0, 9, batch), close(5)].concat();
        let hill = Hill { middle: 7, ..Hill::empty(1, 5, 5, 5, 1) };
        assert_eq!(summarise(&chunk, 1, 24), Ok(hill.bytes()), "batch {batch}");
        let log = [batched(0, 7, 0, 9, batch), close(0)].concat();
        assert_eq!(day(&log), Ok([7, 7, 7, 7]), "batch {batch}");
        assert_eq!(read_table(&log, 14), Ok(line(0, 7, 0, 9)), "batch {batch}");
    }
}

/// Log D whose three open records have these batches, or none.
fn d_with(batches: [Option<u32>; 3]) -> Vec<Vec<u8>> {
    let opened = |depth, value, ceiling, batch: Option<u32>| match batch {
        Some(batch) => batched(depth, value, 0, ceiling, batch),
        None => open(depth, value, 0, ceiling),
    };
    let [first, second, third] = batches;
    vec![opened(0, 10, 100, first), opened(1, 5, 4, second), close(1), opened(1, -3, 100, third), close(1), close(0)]
}

/// Log D with a batch in each of the three, in two of them and in one, of every kind.
fn ds_with_batches() -> Vec<Vec<Vec<u8>>> {
    let mut logs = Vec::new();
    for (place, &batch) in BATCHES.iter().enumerate() {
        let other = BATCHES[(place + 1) % BATCHES.len()];
        for which in 1..8 {
            let chosen = |bit: usize, batch| ((which >> bit) & 1 == 1).then_some(batch);
            logs.push(d_with([chosen(0, batch), chosen(1, other), chosen(2, batch)]));
        }
    }
    logs
}

#[test]
fn d_is_d_without_batches() {
    assert_eq!(d_with([None; 3]), log_d());
    assert_eq!(ds_with_batches().len(), 9 * 7);
}

#[test]
fn figures_and_summaries_of_d_ignore_them() {
    for log in ds_with_batches() {
        assert_eq!(day(&log.concat()), Ok([12, 15, 12, 72]));
        assert_eq!(day_text(&log.concat()), b"12 15 12 72\n");
        for mode in MODES {
            let summary = |records: &[Vec<u8>]| summarise(&records.concat(), mode.into(), AMPLE);
            assert_eq!(summary(&log), summary(&log_d()));
            // Cut after each record, also right after a batch.
            for cut in 0..=6 {
                assert_eq!(summary(&log[..cut]), summary(&log_d()[..cut]));
                assert_eq!(summary(&log[cut..]), summary(&log_d()[cut..]));
            }
        }
    }
}

#[test]
fn plan_runs_and_work_of_d_ignore_them() {
    let numbers: [&[i64]; 4] = [&[12, 0, 0], &[15, 7, 15], &[12, 12, 7, 11], &[961, 72, 0]];
    for log in ds_with_batches() {
        for (mode, numbers) in MODES.into_iter().zip(numbers) {
            let [left, right] = [&log[..2], &log[2..]].map(|records| summarise(&records.concat(), mode.into(), AMPLE).unwrap());
            assert_eq!((left.len(), right.len()), (64, 40));
            assert_eq!(merge(&left, &right, 24), summarise(&log_d().concat(), mode.into(), 24));
            let row = [left, right].concat();
            assert_eq!(plan(&row, 12), Ok(words(&[12, 19, 0, 1, 0, 1])));
            assert_eq!(runs(&row, run_length(mode)), Ok(run(mode, numbers)));
            assert_eq!(work(&row), Ok((in_mode(mode, [12, 15, 12, 72]), 1, 2)));
        }
    }
}

#[test]
fn a_cut_within_a_record_of_22_is_refused() {
    for log in [d_with([None, Some(6 + 2 * 65_536), None]), d_with([Some(1), Some(u32::MAX), Some(0)])] {
        let end = log[..2].concat().len();
        let log = log.concat();
        assert!(summarise(&log[..end], 1, AMPLE).is_ok());
        assert!(summarise(&log[end..], 1, AMPLE).is_ok());
        // After the 18 bytes, and within the batch.
        for cut in end - 4..end {
            assert_eq!(summarise(&log[..cut], 1, AMPLE), Err(3));
            assert_eq!(summarise(&log[cut..], 1, AMPLE), Err(3));
        }
    }
}

#[test]
fn the_same_bytes_come_back_only_for_records_of_length_18() {
    let table = [line(0, 10, 0, 100), line(1, 5, 0, 4), line(1, -3, 0, 100)].concat();
    let full = log_d().concat();
    for log in ds_with_batches() {
        let log = log.concat();
        assert_eq!(read_table(&log, 42), Ok(table.clone()));
        assert_eq!(read_table(&log, 41), Err(12));
        assert_ne!(log, full);
    }
    assert_eq!(read_table(&full, 42), Ok(table.clone()));
    assert_eq!(write_log(&table, AMPLE), Ok(full));
}

#[test]
fn all_three_lengths_in_one_log() {
    let log = [
        batched(0, 1, 0, 101, 9),
        short(1, -4),
        batched(2, 100, 0, 90, u32::MAX),
        close(2),
        open(2, 5, 6, 7),
        close(2),
        close(1),
        batched(1, 8, 9, 9, 0),
        close(1),
        close(0),
    ];
    // Net 1 - 4 + 100 + 5 + 8; heaviest 1 - 4 + 100. Eaten: 100, 5 and 8 hold nothing and
    // count as they are; -4 with what it holds makes 101; 1 + 101 + 8 is lowered to 101.
    // Stamp: -4 + 31 × 105 = 3,251, and 1 + 31 × (3,251 + 8).
    assert_eq!(day(&log.concat()), Ok([110, 97, 101, 101_030]));
    let table = [line(0, 1, 0, 101), line(1, -4, 0, GREATEST), line(2, 100, 0, 90), line(2, 5, 6, 7), line(1, 8, 9, 9)];
    assert_eq!(read_table(&log.concat(), 70), Ok(table.concat()));
    // Read one after another, by the lengths answered.
    let log = log.concat();
    let mut rest = &log[..];
    let mut answered = Vec::new();
    while let Ok([_, length, .., batch]) = read_record(rest) {
        answered.push((length, batch));
        rest = &rest[length as usize..];
    }
    let expected = [(22, 9), (10, 0), (22, 4_294_967_295), (6, 0), (18, 0), (6, 0), (6, 0), (22, 0), (6, 0), (6, 0)];
    assert_eq!(answered, expected);
    assert!(rest.is_empty());
}

/// A log of 2,730 records of one gram, of which the first holds all others: 65,520 bytes
/// in records of length 18, and 4 more for each of so many batches.
fn longest_with(batches: usize) -> Vec<u8> {
    let held = |place| {
        let opened = if place < batches { batched(1, 1, LEAST, GREATEST, 7) } else { open(1, 1, LEAST, GREATEST) };
        [opened, close(1)].concat()
    };
    let log = [open(0, 1, LEAST, GREATEST), (0..2729).flat_map(held).collect(), close(0)].concat();
    assert_eq!(log.len(), 65_520 + 4 * batches);
    log
}

#[test]
fn the_batches_count_in_the_length_of_a_chunk() {
    let table = [line(0, 1, LEAST, GREATEST), line(1, 1, LEAST, GREATEST).repeat(2729)].concat();
    for batches in [0, 1, 3, 4] {
        let log = longest_with(batches);
        // Stamp 1 + 31 × 2,729.
        assert_eq!(day(&log), Ok([2730, 2, 2730, 84_600]));
        assert_eq!(read_table(&log, AMPLE), Ok(table.clone()));
        for mode in MODES.map(u32::from) {
            assert_eq!(summarise(&log, mode, 24), summarise(&longest_with(0), mode, 24));
        }
    }
    // 65,540 bytes and more; reading does not ask how many there are.
    for batches in [5, 6, 2729] {
        let log = longest_with(batches);
        assert_eq!(day(&log), Err(2));
        assert_eq!(read_table(&log, AMPLE), Err(2));
        for mode in MODES {
            assert_eq!(summarise(&log, mode.into(), AMPLE), Err(2));
        }
        assert_eq!(read_record(&log), Ok([1, 18, 0, 1, LEAST.into(), GREATEST.into(), 0]));
        assert_eq!(read_record(&log[18..]), Ok([1, 22, 1, 1, LEAST.into(), GREATEST.into(), 7]));
    }
}
