//! "The questions at the gate": which call puts which, and in which order; mode 3 is out of
//! use by document 02, and 5 in use. `compare` puts them to the library.

use crate::calls::{day, finish, merge, merge_row, plan, read_record, runs, summarise, work};
use reference::gen::raw::{blank, close, log_d, nothing, open, run_length, short, spoilt, Hill, MODES};

/// A hill that begins or ends elsewhere than at level 0: "open 0".
fn open_hill(mode: u16) -> Vec<u8> {
    Hill { mode, start: 0, peak: 0, end: 1, opened: 1, left: vec![], middle: nothing(mode), right: vec![(1, 0, 9, nothing(mode))] }
        .bytes()
}

/// The hill of "close 0".
fn close_hill(mode: u16) -> Vec<u8> {
    Hill { mode, start: 1, peak: 0, end: 0, opened: 0, left: vec![nothing(mode)], middle: nothing(mode), right: vec![] }.bytes()
}

/// A closed record alone, at level 0.
fn whole_hill(mode: u16, opened: u32, figure: i64) -> Vec<u8> {
    Hill { mode, start: 0, peak: 0, end: 0, opened, left: vec![], middle: figure, right: vec![] }.bytes()
}

/// Plan, runs and work answer the same refusal, into any buffer.
fn assert_row_refused(row: &[u8], number: u8) {
    for capacity in [0, 4096] {
        assert_eq!(plan(row, capacity), Err(number));
        assert_eq!(runs(row, capacity), Err(number));
    }
    assert_eq!(work(row), Err(number));
}

#[test]
fn question_1_comes_first() {
    let too_long = vec![0; 65_537];
    for mode in [0, 3, 6, 7, 16, 65_537, 65_541, 0x1_0000, u32::MAX] {
        assert_eq!(summarise(&too_long, mode, 0), Err(1), "mode {mode}");
        assert_eq!(summarise(&[], mode, 4096), Err(1), "mode {mode}");
    }
    for mode in MODES {
        assert!(summarise(&[], mode.into(), 6).is_ok());
    }
}

#[test]
fn question_2_before_3() {
    // Neither is a readable chunk.
    assert_eq!(summarise(&vec![0; 65_537], 1, 0), Err(2));
    assert_eq!(summarise(&vec![0; 65_536], 1, 0), Err(3));
    assert_eq!(day(&vec![0; 65_537]), Err(2));
    assert_eq!(day(&vec![0; 65_536]), Err(3));
}

#[test]
fn question_3_before_faults_and_12() {
    // Fault 7, then a record that is not readable.
    let chunk = [short(0, 1), short(0, 1), close(64)].concat();
    assert_eq!(summarise(&chunk, 1, 0), Err(3));
    assert_eq!(day(&chunk), Err(3));
    assert_eq!(read_record(&chunk), Ok([1, 10, 0, 1, 0, 1_000_000_000, 0]));
}

#[test]
fn faults_do_not_stop_summarise_merge_and_row() {
    let chunk = [short(0, 1), short(0, 1)].concat();
    let spoilt_7 = spoilt(1, 7, 0, 1, 2);
    assert_eq!(summarise(&chunk, 1, 16), Ok(spoilt_7.clone()));
    assert_eq!(summarise(&chunk, 1, 15), Err(12));
    // Blank merged with it is its own bytes, on either side.
    assert_eq!(merge(&blank(1), &spoilt_7, 16), Ok(spoilt_7.clone()));
    assert_eq!(merge(&spoilt_7, &blank(1), 16), Ok(spoilt_7.clone()));
    let row = [blank(1), spoilt_7.clone(), blank(1)].concat();
    assert_eq!(merge_row(&row, 16), Ok(spoilt_7));
    assert_eq!(merge_row(&row, 15), Err(12));
}

#[test]
fn question_4_before_5() {
    assert_row_refused(&[], 4);
    assert_eq!(merge_row(&[], 4096), Err(4));
    // One piece, no summary.
    assert_row_refused(&[0; 40], 4);
    assert_eq!(merge_row(&[0; 40], 4096), Err(4));
    // 65 pieces, the last a stray byte.
    let mut row = blank(1).repeat(64);
    row.push(0);
    assert_row_refused(&row, 4);
    assert_eq!(merge_row(&row, 4096), Err(4));
    // Two pieces, the second a stray byte.
    let row = [blank(1), vec![0]].concat();
    assert_row_refused(&row, 5);
    assert_eq!(merge_row(&row, 4096), Err(5));
}

#[test]
fn question_5_before_6() {
    let broken = whole_hill(1, 0, 0);
    for row in [[blank(1), blank(2), broken.clone()].concat(), [broken.clone(), blank(2)].concat()] {
        assert_row_refused(&row, 5);
        assert_eq!(merge_row(&row, 0), Err(5));
    }
    assert_eq!(merge(&broken, &blank(2), 0), Err(5));
    assert_eq!(merge(&blank(2), &broken, 0), Err(5));
    assert_eq!(merge(&[], &blank(2), 0), Err(5));
    // Two summaries lent as one piece.
    let two = blank(1).repeat(2);
    assert_eq!(merge(&two, &blank(1), 4096), Err(5));
    assert_eq!(finish(&two), Err(5));
    assert_eq!(finish(&[]), Err(5));
}

#[test]
fn question_6_before_the_faults_and_12() {
    for (one, other) in [(blank(1), blank(2)), (blank(5), spoilt(4, 7, 0, 0, 0)), (spoilt(1, 7, 0, 0, 0), whole_hill(2, 1, 1))] {
        assert_eq!(merge(&one, &other, 0), Err(6));
        let row = [one.clone(), one, other].concat();
        assert_eq!(merge_row(&row, 0), Err(6));
        assert_row_refused(&row, 6);
    }
}

#[test]
fn faults_of_a_row_lowest_first() {
    let meets_not = [open_hill(1), open_hill(1)].concat();
    let level_0 = [whole_hill(1, 1, 1), whole_hill(1, 1, 1)].concat();
    let cases = [
        (meets_not.clone(), 7),
        (level_0.clone(), 8),
        // Levels 1 and 1 meet, but nothing closes the first: 11.
        ([open_hill(1), blank(1)].concat(), 11),
        ([blank(1), close_hill(1)].concat(), 11),
        // A fault inside a spoilt one, and a lower one at a join.
        ([spoilt(1, 8, 0, 3, 9), spoilt(1, 9, 5, 0, 100_001)].concat(), 7),
        ([spoilt(1, 9, 0, 0, 100_001), whole_hill(1, 1, 1)].concat(), 8),
        // A fault inside a spoilt one, and a higher one at a join.
        ([spoilt(1, 7, 0, 0, 0), whole_hill(1, 1, 1)].concat(), 7),
        ([spoilt(1, 8, 2, 3, 1), spoilt(1, 9, 3, 1, 100_001)].concat(), 8),
        // 9 before 11; blanks between do not part neighbours.
        ([spoilt(1, 9, 2, 3, 100_001), blank(1)].concat(), 9),
        ([whole_hill(1, 1, 1), blank(1), whole_hill(1, 1, 1)].concat(), 8),
        ([open_hill(1), blank(1), open_hill(1)].concat(), 7),
        ([blank(1), blank(1)].concat(), 10),
    ];
    for (row, fault) in cases {
        assert_row_refused(&row, fault);
        let merged = merge_row(&row, 4096).unwrap();
        assert_eq!(finish(&merged), Err(fault));
    }
}

#[test]
fn opened_is_counted_over_the_row() {
    // 99,999 + 1 records are taken, one more is not. Together: closed records at
    // level 1 inside one that is open at first.
    let inner = |opened: u32| Hill { mode: 4, start: 1, peak: 1, end: 1, opened, left: vec![], middle: 7, right: vec![] }.bytes();
    let row = |opened| [open_hill(4), inner(opened), close_hill(4)].concat();
    // 1 + 31 × 7 = 218, by one join of one level.
    assert_eq!(work(&row(99_999)), Ok((218, 1, 1)));
    assert_eq!(merge_row(&row(99_999), 24), Ok(whole_hill(4, 100_000, 218)));
    assert_row_refused(&row(100_000), 9);
    assert_eq!(merge_row(&row(100_000), 16), Ok(spoilt(4, 9, 0, 0, 100_001)));
}

#[test]
fn a_spoilt_result_takes_its_ends_and_counts_from_both_sides() {
    let cases = [
        // (left, right, merged)
        ((7, 1, 2, 5), (8, 2, 3, 6), (7, 1, 3, 11)),
        ((8, 1, 2, 5), (8, 2, 3, 6), (8, 1, 3, 11)),
        ((8, 1, 3, 5), (8, 5, 3, 6), (7, 1, 3, 11)),
        ((8, 4, 0, 0), (9, 0, 64, 100_001), (8, 4, 64, 100_001)),
        ((9, 4, 0, 100_001), (9, 0, 64, 100_001), (8, 4, 64, 100_001)),
        ((9, 4, 1, 100_001), (9, 1, 64, 100_001), (9, 4, 64, 100_001)),
        ((8, 4, 1, 100_000), (8, 1, 64, 1), (8, 4, 64, 100_001)),
        ((8, 4, 1, 99_999), (8, 1, 64, 1), (8, 4, 64, 100_000)),
        ((8, 4, 1, 60_000), (8, 1, 64, 60_000), (8, 4, 64, 100_001)),
    ];
    for (left, right, merged) in cases {
        let bytes = |(fault, start, end, opened): (u16, u16, u16, u32)| spoilt(2, fault, start, end, opened);
        assert_eq!(merge(&bytes(left), &bytes(right), 16), Ok(bytes(merged)), "{left:?} {right:?}");
    }
    // A hill beside a spoilt one gives its levels and its count.
    assert_eq!(merge(&open_hill(2), &spoilt(2, 8, 1, 7, 3), 16), Ok(spoilt(2, 8, 0, 7, 4)));
    assert_eq!(merge(&spoilt(2, 8, 7, 2, 3), &close_hill(2), 16), Ok(spoilt(2, 7, 7, 0, 3)));
}

#[test]
fn question_12_comes_last_and_exact_fits() {
    let d = log_d();
    let (left, right) = (d[..2].concat(), d[2..].concat());
    for mode in MODES {
        // Lengths 64 and 40, merged 24; one plan line of 12 bytes, one run of 30, or of 38 in
        // mode 5.
        let (number, run) = (mode.into(), run_length(mode));
        assert_eq!(summarise(&left, number, 63), Err(12));
        let left = summarise(&left, number, 64).unwrap();
        assert_eq!(summarise(&right, number, 39), Err(12));
        let right = summarise(&right, number, 40).unwrap();
        assert_eq!(merge(&left, &right, 23), Err(12));
        assert_eq!(merge(&left, &right, 24).map(|bytes| bytes.len()), Ok(24));
        let row = [left, right].concat();
        assert_eq!(merge_row(&row, 23), Err(12));
        assert_eq!(merge_row(&row, 24).map(|bytes| bytes.len()), Ok(24));
        assert_eq!(plan(&row, 11), Err(12));
        assert_eq!(plan(&row, 12).map(|bytes| bytes.len()), Ok(12));
        assert_eq!(runs(&row, run - 1), Err(12));
        assert_eq!(runs(&row, run).map(|bytes| bytes.len()), Ok(run));
        // A fault is found before the buffer is looked at.
        assert_row_refused(&[row.clone(), row].concat(), 8);
    }
    assert_eq!(summarise(&[], 1, 5), Err(12));
    assert_eq!(summarise(&[], 1, 6), Ok(blank(1)));
}

#[test]
fn finish_gives_the_stored_middle() {
    assert_eq!(finish(&whole_hill(1, 3, -5)), Ok(-5));
    assert_eq!(finish(&whole_hill(1, 100_000, 100_000_000_000_000)), Ok(100_000_000_000_000));
    // A hill of mode 2 or 5 whose middle is nothing, which no chunk makes.
    for mode in [2, 5] {
        let row = [whole_hill(mode, 1, nothing(mode)), blank(mode)].concat();
        assert_eq!(finish(&whole_hill(mode, 1, nothing(mode))), Ok(i64::MIN));
        assert_eq!(work(&row), Ok((i64::MIN, 0, 0)));
    }
    assert_eq!(finish(&open_hill(2)), Err(11));
    assert_eq!(finish(&close_hill(2)), Err(11));
    for fault in [7, 8] {
        assert_eq!(finish(&spoilt(1, fault, 3, 3, 5)), Err(fault as u8));
    }
}

#[test]
fn the_day_puts_the_faults_in_order() {
    let whole = [open(0, 1, 0, 9), close(0)].concat();
    assert_eq!(day(&whole).map(|figures| figures[0]), Ok(1));
    assert_eq!(day(&[whole.clone(), whole.clone()].concat()), Err(8));
    assert_eq!(day(&[whole.clone(), close(0)].concat()), Err(7));
    assert_eq!(day(&[whole, close(1), close(0)].concat()), Err(7));
    assert_eq!(day(&short(0, 1)), Err(11));
    assert_eq!(day(&close(0)), Err(11));
}
