//! L8, "Short records start from zero", sentence by sentence; logs, tables and runs are worked
//! out by hand. `crate::calls` are the reference's here and the library's in `compare`, which
//! has this file too. Summaries that were sent before are those of `sent_before`.

use crate::calls::{day, day_text, heaviest_line, plan, read_record, read_table, runs, summarise, work, write_log};
use crate::drop_at_value::{assert_eaten, assert_eaten_however_cut};
use reference::gen::logs::BATCHES;
use reference::gen::raw::{batched, close, in_mode, line, nothing, open, run, run_length, short, words, Hill, MODES, RANGE};

const AMPLE: usize = 8192;
const LEAST: i32 = -1_000_000_000;
const GREATEST: i32 = 1_000_000_000;

/// What the request calls the old floor, which takes length 18 now.
pub fn with_old_floor(depth: u16, value: i32) -> Vec<u8> {
    open(depth, value, LEAST, GREATEST)
}

/// The new default written out.
fn full(depth: u16, value: i32) -> Vec<u8> {
    open(depth, value, 0, GREATEST)
}

/// A log by the depths and values of its opened records, in log order, and by how an open is
/// written. Closes stand where they belong.
fn log(records: &[(u16, i32)], opened: fn(u16, i32) -> Vec<u8>) -> Vec<Vec<u8>> {
    let mut log = Vec::new();
    let mut level = 0;
    for &(depth, value) in records {
        log.extend((depth..level).rev().map(close));
        log.push(opened(depth, value));
        level = depth + 1;
    }
    log.extend((0..level).rev().map(close));
    log
}

/// The figures of a log of short records, and eaten where all have the old floor; however they
/// are cut. Short records are full ones with the new default.
fn assert_figures(records: &[(u16, i32)], [net, heaviest, eaten, stamp]: [i64; 4], before: i64) {
    for (opened, eaten) in [(short as fn(u16, i32) -> Vec<u8>, eaten), (full, eaten), (with_old_floor, before)] {
        let log = log(records, opened);
        assert_eq!(day(&log.concat()), Ok([net, heaviest, eaten, stamp]), "{records:?}");
        assert_eaten_however_cut(&log, eaten);
    }
}

#[test]
fn a_short_record_in_bytes() {
    // Length 10, kind 1, depth 63, value -1,000,000,000.
    let record = [10, 0, 1, 0, 63, 0, 0, 54, 101, 196];
    assert_eq!(read_record(&record), Ok([1, 10, 63, -1_000_000_000, 0, 1_000_000_000, 0]));
    assert_eq!(record.to_vec(), short(63, LEAST));
}

#[test]
fn the_default_floor_becomes_0_and_the_ceiling_stays() {
    for depth in [0, 1, 62, 63] {
        for value in [LEAST, LEAST + 1, -5, -1, 0, 1, 5, GREATEST - 1, GREATEST] {
            let fields = [1, 10, depth.into(), value.into(), 0, 1_000_000_000, 0];
            // Whatever comes next, floors and ceilings of others with it.
            for later in [vec![], with_old_floor(depth, value), close(depth), vec![0xff; 8], vec![0; 12]] {
                assert_eq!(read_record(&[short(depth, value), later].concat()), Ok(fields));
            }
        }
    }
}

#[test]
fn full_records_keep_their_floors() {
    for (floor, ceiling) in [(LEAST, GREATEST), (-5, GREATEST), (-5, -5), (LEAST, LEAST), (-1, 0), (0, GREATEST), (1, 2)] {
        for (depth, value) in [(0, 0), (0, LEAST), (63, -3), (63, GREATEST)] {
            let fields = |length, batch| [1, length, depth.into(), value.into(), floor.into(), ceiling.into(), batch];
            assert_eq!(read_record(&open(depth, value, floor, ceiling)), Ok(fields(18, 0)));
            for batch in BATCHES {
                assert_eq!(read_record(&batched(depth, value, floor, ceiling, batch)), Ok(fields(22, batch.into())));
            }
        }
    }
}

#[test]
fn nothing_else_is_refused_or_read() {
    let unreadable = |bytes: &[u8]| {
        assert_eq!(read_record(bytes), Err(3), "{bytes:?}");
        assert_eq!(summarise(bytes, 5, AMPLE), Err(3), "{bytes:?}");
        assert_eq!(day(bytes), Err(3), "{bytes:?}");
        assert_eq!(read_table(bytes, AMPLE), Err(3), "{bytes:?}");
    };
    // The value's range is what it was, on both sides; it may be below the floor.
    for far in [i32::MIN, LEAST - 1, GREATEST + 1, i32::MAX] {
        unreadable(&[short(0, far), close(0)].concat());
    }
    for near in [LEAST, LEAST + 1, -1, 0, GREATEST] {
        assert!(day(&[short(0, near), close(0)].concat()).is_ok());
    }
    // All ten bytes are there, and the depth is 0 to 63.
    for length in 1..10 {
        unreadable(&short(0, -3)[..length]);
    }
    unreadable(&short(64, -3));
    // No other length is a short one.
    for length in [0, 6, 8, 9, 11, 12, 14, 17, 0x010a, 0x0a00] {
        unreadable(&[words(&[length, 1, 0]), vec![0; 0x0a00]].concat());
    }
}

#[test]
fn a_day_below_0_is_raised_to_0() {
    // 5 over -8: -3. Stamp 5 - 31 × 8 = -243, and 2^32 - 243 is 4,294,967,053.
    let records = [(0, 5), (1, -8)];
    assert_figures(&records, [-3, -3, 0, 4_294_967_053], -3);
    assert_eq!(day_text(&log(&records, short).concat()), b"-3 -3 0 4294967053\n");
    assert_eq!(day_text(&log(&records, full).concat()), b"-3 -3 0 4294967053\n");
    // The old floor takes length 18.
    assert_eq!(day_text(&log(&records, with_old_floor).concat()), b"-3 -3 -3 4294967053\n");
}

#[test]
fn sums_next_to_0() {
    // One over another: net and heaviest are their sum, and the stamp is v + 31 times the other,
    // with 2^32 more where that is below 0.
    for (value, held, eaten, stamp) in [
        (5, -6, 0, RANGE - 181),
        (5, -5, 0, RANGE - 150),
        (5, -4, 1, RANGE - 119),
        (0, -1, 0, RANGE - 31),
        (-1, 0, 0, RANGE - 1),
        (-1, 1, 0, 30),
        (-1, 2, 1, 61),
        (0, 0, 0, 0),
    ] {
        let sum = i64::from(value + held);
        assert_figures(&[(0, value), (1, held)], [sum, sum, eaten, stamp], sum);
    }
    // 2 over 4 and -9: -3; heaviest 2 + 4; stamp 2 - 31 × 5.
    assert_figures(&[(0, 2), (1, 4), (1, -9)], [-3, 6, 0, RANGE - 153], -3);
    // -10^9 twice, which the old floor stopped at -10^9. -32 × 10^9 + 8 × 2^32.
    assert_figures(&[(0, LEAST), (1, LEAST)], [-2_000_000_000, -2_000_000_000, 0, 2_359_738_368], -1_000_000_000);
    // 30 × 10^9 - 6 × 2^32.
    assert_figures(&[(0, LEAST), (1, GREATEST)], [0, 0, 0, 4_230_196_224], 0);
}

#[test]
fn the_ceiling_is_what_it_was() {
    for (value, held, eaten, stamp) in [
        (GREATEST, 1, 1_000_000_000, 1_000_000_031),
        (1, GREATEST, 1_000_000_000, 31_000_000_001 - 7 * RANGE),
        (GREATEST - 1, 1, 1_000_000_000, 1_000_000_030),
        (GREATEST - 1, 2, 1_000_000_000, 1_000_000_061),
        (GREATEST - 1, 0, 999_999_999, 999_999_999),
        (GREATEST, 0, 1_000_000_000, 1_000_000_000),
    ] {
        let sum = i64::from(value + held);
        assert_figures(&[(0, value), (1, held)], [sum, sum, eaten, stamp], eaten);
    }
    // 62 × 10^9 - 14 × 2^32.
    let records = [(0, 0), (1, GREATEST), (1, GREATEST)];
    assert_figures(&records, [2_000_000_000, 1_000_000_000, 1_000_000_000, 1_870_457_856], 1_000_000_000);
}

#[test]
fn each_record_is_raised_on_its_own() {
    // 1 - 9 is raised to 0, and 3 + 0 is left. Stamp 3 + 31 × (1 - 31 × 9) = -8,615.
    assert_figures(&[(0, 3), (1, 1), (2, -9)], [-5, -5, 3, RANGE - 8_615], -5);
    // 1 - 7 to 0, 4 + 0, -2 + 4. Stamp -2 + 31 × (4 + 31 × (1 - 31 × 7)) = -207,454.
    assert_figures(&[(0, -2), (1, 4), (2, 1), (3, -7)], [-4, -4, 2, RANGE - 207_454], -4);
    // -1 - 1 to 0, and -1 + 0 to 0. Stamp -(1 + 31 + 961).
    assert_figures(&[(0, -1), (1, -1), (2, -1)], [-3, -3, 0, RANGE - 993], -3);
    // Side by side: 0 over -6 to 0, 0 over 4, and -2 as it is: 1 + 0 + 4 - 2. Net 1 - 6 + 4 - 2,
    // heaviest 1 + 4, stamp 1 + 31 × (31 × (4 - 6) - 2) = -1,983.
    assert_figures(&[(0, 1), (1, 0), (2, -6), (1, 0), (2, 4), (1, -2)], [-3, 5, 3, RANGE - 1_983], -3);
}

#[test]
fn a_ceiling_below_0_is_enough_to_move_eaten() {
    // All values are 0. The middle one, 0 over 0, is lowered to -5; the outer one, 0 - 5, is raised
    // to 0, and the old floor leaves it at -5.
    for (opened, eaten) in [(short as fn(u16, i32) -> Vec<u8>, 0), (full, 0), (with_old_floor, -5)] {
        let log = [opened(0, 0), open(1, 0, -9, -5), opened(2, 0), close(2), close(1), close(0)];
        assert_eq!(day(&log.concat()), Ok([0, 0, eaten, 0]));
        assert_eaten_however_cut(&log, eaten);
    }
}

#[test]
fn down_to_depth_63() {
    // 64 records of -1 gram, each holding the next: the last counts -1, each other -1 - 1 or
    // -1 + 0, raised to 0.
    let records: Vec<(u16, i32)> = (0..64).map(|depth| (depth, -1)).collect();
    for (opened, eaten) in [(short as fn(u16, i32) -> Vec<u8>, 0), (with_old_floor, -64)] {
        let log = log(&records, opened);
        assert_eq!(day(&log.concat()).map(|[net, heaviest, eaten, _]| [net, heaviest, eaten]), Ok([-64, -64, eaten]));
        for cut in [1, 2, 32, 63, 64, 65, 127] {
            assert_eaten(&[&log[..cut], &log[cut..]], eaten);
        }
    }
}

#[test]
fn a_short_record_that_holds_nothing_counts_its_value() {
    for (value, stamp) in [(LEAST, RANGE - 1_000_000_000), (-1, RANGE - 1), (0, 0), (1, 1), (GREATEST, 1_000_000_000)] {
        let grams = i64::from(value);
        assert_figures(&[(0, value)], [grams, grams, grams, stamp], grams);
        // Held by one whose floor is the old one it takes away what it says.
        assert_eaten_however_cut(&[with_old_floor(0, 0), short(1, value), close(1), close(0)], grams);
        assert_eaten_however_cut(&[batched(0, 0, LEAST, GREATEST, 7), short(1, value), close(1), close(0)], grams);
    }
}

#[test]
fn the_old_floor_takes_length_18() {
    // A returns desk: a tank of 80 g and 200 back, one of 260 and 40 back. Net 80 - 200 + 260 - 40,
    // heaviest 260, stamp 31 × 31 × 100. In short records the first tank counts 0.
    let records = [(0, 0), (1, 0), (2, 80), (2, -200), (1, 0), (2, 260), (2, -40)];
    assert_figures(&records, [100, 260, 220, 96_100], 100);
}

#[test]
fn all_lengths_in_one_log() {
    // The middle one is 2 over -9: 0 where it is short, else -7; the outer one adds 1.
    for (outer, middle, eaten) in [
        (with_old_floor(0, 1), short(1, 2), 1),
        (with_old_floor(0, 1), with_old_floor(1, 2), -6),
        (short(0, 1), with_old_floor(1, 2), 0),
        (short(0, 1), short(1, 2), 1),
        (short(0, 1), batched(1, 2, LEAST, GREATEST, 10 + 65_536), 0),
        (batched(0, 1, LEAST, GREATEST, 0), batched(1, 2, LEAST, GREATEST, 1), -6),
        (open(0, 1, -5, GREATEST), with_old_floor(1, 2), -5),
        (open(0, 1, -5, GREATEST), open(1, 2, -4, GREATEST), -3),
        (open(0, 1, -5, GREATEST), short(1, 2), 1),
    ] {
        let log = [outer, middle, short(2, -9), close(2), close(1), close(0)];
        // Net and heaviest 1 + 2 - 9, stamp 1 + 31 × (2 - 31 × 9).
        assert_eq!(day(&log.concat()), Ok([-6, -6, eaten, RANGE - 8_586]));
        assert_eaten_however_cut(&log, eaten);
    }
}

#[test]
fn a_short_record_fills_its_line_with_floor_0() {
    // 5, and in it -8 and, in full with the old floor, -8 again: depth, value, floor, ceiling.
    let log = [short(0, 5), short(1, -8), close(1), with_old_floor(1, -8), close(1), close(0)].concat();
    let table: [u8; 42] = [
        0, 0, 5, 0, 0, 0, 0, 0, 0, 0, 0, 202, 154, 59, //
        1, 0, 0xf8, 0xff, 0xff, 0xff, 0, 0, 0, 0, 0, 202, 154, 59, //
        1, 0, 0xf8, 0xff, 0xff, 0xff, 0, 54, 101, 196, 0, 202, 154, 59,
    ];
    assert_eq!(read_table(&log, 42), Ok(table.to_vec()));
    assert_eq!(table.to_vec(), [line(0, 5, 0, GREATEST), line(1, -8, 0, GREATEST), line(1, -8, LEAST, GREATEST)].concat());
    // Written again it is a log of full records, with the same figures: 5 - 8 - 8 is raised to 0,
    // and the stamp is 5 - 31 × 16.
    let written = [full(0, 5), full(1, -8), close(1), with_old_floor(1, -8), close(1), close(0)].concat();
    assert_eq!(write_log(&table, 72), Ok(written.clone()));
    for log in [log, written] {
        assert_eq!(day(&log), Ok([-11, -3, 0, RANGE - 491]));
    }
}

#[test]
fn the_heaviest_line_does_not_move() {
    // 5 over -8; and 0 over two tanks, of which the first has 80 and -200, the second -40 and 260.
    for (records, numbers) in [
        (&[(0, 5), (1, -8)][..], &[0u8, 0, 0, 0, 1, 0, 0, 0][..]),
        (&[(0, 0), (1, 0), (2, 80), (2, -200), (1, 0), (2, -40), (2, 260)], &[0, 0, 0, 0, 4, 0, 0, 0, 6, 0, 0, 0]),
    ] {
        for opened in [short, full, with_old_floor] {
            assert_eq!(heaviest_line(&log(records, opened).concat(), numbers.len()), Ok(numbers.to_vec()));
        }
    }
}

#[test]
fn an_unclosed_short_record_carries_floor_0() {
    // open 0 value 5 of length 10: length 44, kind 18, mode 5; start 0, peak 0, end 1; one
    // opened; the middle; value 5, floor 0, ceiling 1,000,000,000; held so far.
    let bytes: [u8; 44] = [
        44, 0, 18, 0, 5, 0, 0, 0, 0, 0, 1, 0, 1, 0, 0, 0, //
        0, 0, 0, 0, 0, 0, 0, 0x80, //
        5, 0, 0, 0, 0, 0, 0, 0, 0, 202, 154, 59, //
        0, 0, 0, 0, 0, 0, 0, 0x80,
    ];
    assert_eq!(summarise(&short(0, 5), 5, 44), Ok(bytes.to_vec()));
    // In every mode and at every depth, and for all that are unclosed.
    for mode in MODES {
        for depth in 0..=62 {
            let right = vec![(-8, 0, GREATEST, nothing(mode)), (7, 0, GREATEST, nothing(mode))];
            let hill = Hill { right, ..Hill::empty(mode, depth, depth, depth + 2, 2) };
            assert_eq!(summarise(&[short(depth, -8), short(depth + 1, 7)].concat(), mode.into(), 64), Ok(hill.bytes()));
        }
    }
}

/// The row of a log's first chunk, of so many records, and the rest.
fn cut(log: &[Vec<u8>], records: usize, mode: u16) -> Vec<u8> {
    let (left, right) = log.split_at(records);
    [left, right].iter().flat_map(|chunk| summarise(&chunk.concat(), mode.into(), AMPLE).expect("readable")).collect()
}

#[test]
fn runs_of_short_records() {
    // One record of 5: nothing inside 5, for numbers 0 to 10^9. Two, 5 over -8: nothing inside -8
    // and 5 - 8, raised to 0; for numbers 0 to 10^9 and 5 more, lowered to 10^9.
    let (one, two) = ([(0, 5)], [(0, 5), (1, -8)]);
    assert_eq!(runs(&cut(&log(&one, short), 1, 5), 38), Ok(run(5, &[5, 5, 0, 1_000_000_000])));
    assert_eq!(runs(&cut(&log(&two, short), 2, 5), 38), Ok(run(5, &[0, -3, 5, 1_000_000_000])));
    // With the old floor: from -10^9, and 5 more.
    assert_eq!(runs(&cut(&log(&one, with_old_floor), 1, 5), 38), Ok(run(5, &[5, 5, -1_000_000_000, 1_000_000_000])));
    assert_eq!(runs(&cut(&log(&two, with_old_floor), 2, 5), 38), Ok(run(5, &[-3, -3, -999_999_995, 1_000_000_000])));
    // The other modes do not look at floors. Stamp 31 × 31, and 5 - 31 × 8.
    let figures = |eaten| [-3, -3, eaten, RANGE - 243];
    for (opened, eaten) in [(short as fn(u16, i32) -> Vec<u8>, 0), (with_old_floor, -3)] {
        for mode in MODES {
            let row = cut(&log(&two, opened), 2, mode);
            assert_eq!(plan(&row, 12), Ok(words(&[12, 19, 0, 1, 0, 1])));
            assert_eq!(work(&row), Ok((in_mode(mode, figures(eaten)), 1, 2)));
            let numbers: [&[i64]; 4] = [&[-3, 0, 0], &[-3, i64::MIN, -3], &[], &[961, RANGE - 243, 0]];
            if mode != 5 {
                assert_eq!(runs(&row, run_length(mode)), Ok(run(mode, in_mode(mode, numbers))));
            }
        }
    }
}

#[test]
fn what_is_put_between_goes_through_each_floor() {
    // x within -8 within 5, cut before and after x: -8 + x is raised to 0, and 5 are added.
    let log = log(&[(0, 5), (1, -8)], short);
    for (x, eaten) in [(LEAST, 5), (-1, 5), (0, 5), (7, 5), (8, 5), (9, 6), (20, 17), (GREATEST, 999_999_997)] {
        assert_eaten(&[&log[..2], &[short(2, x), close(2)], &log[2..]], eaten);
    }
}
