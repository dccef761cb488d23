//! Every worked figure of document 01, "Along the edges", and the four slips drawn
//! on paper; where document 01 has mode 3, what document 02's L3 has of mode 5.
//! `crate::calls` are the reference's here and the library's in `compare`, which has
//! this file too.

use crate::calls::{day, day_text, finish, merge, merge_row, plan, read_record, runs, summarise, work};
use reference::gen::raw::{
    blank, close, in_mode, log_d, longest_log, nothing, open, run, run_length, short, spoilt, words, Hill, MODES,
};

/// What document 02 says of log D.
const FIGURES_OF_D: [i64; 4] = [12, 15, 12, 72];
const AMPLE: usize = 4096;

fn summary(records: &[Vec<u8>], mode: u16) -> Vec<u8> {
    summarise(&records.concat(), mode.into(), AMPLE).unwrap()
}

/// D "cut after record 2".
fn cut_d(mode: u16) -> [Vec<u8>; 2] {
    let d = log_d();
    [summary(&d[..2], mode), summary(&d[2..], mode)]
}

#[test]
fn log_d_in_bytes() {
    // Written out by hand: length, kind, depth, value, floor, ceiling.
    let bytes: [u8; 72] = [
        0x12, 0, 1, 0, 0, 0, 10, 0, 0, 0, 0, 0, 0, 0, 100, 0, 0, 0, //
        0x12, 0, 1, 0, 1, 0, 5, 0, 0, 0, 0, 0, 0, 0, 4, 0, 0, 0, //
        6, 0, 2, 0, 1, 0, //
        0x12, 0, 1, 0, 1, 0, 0xfd, 0xff, 0xff, 0xff, 0, 0, 0, 0, 100, 0, 0, 0, //
        6, 0, 2, 0, 1, 0, //
        6, 0, 2, 0, 0, 0,
    ];
    assert_eq!(log_d().concat(), bytes);
    assert_eq!(day(&bytes), Ok(FIGURES_OF_D));
}

#[test]
fn the_day_of_d() {
    // net 10 + 5 - 3; heaviest 10 + the greater of 5 and -3; eaten 10 + 5 - 3 within 0
    // and 100, as 5 and -3 hold nothing and are not bound; stamp 10 + 31 × (5 - 3).
    assert_eq!(day(&log_d().concat()), Ok([12, 15, 12, 72]));
    assert_eq!(day_text(&log_d().concat()), b"12 15 12 72\n");
}

#[test]
fn d_cut_after_record_2_in_mode_1() {
    let [left, right] = cut_d(1);
    assert_eq!((left.len(), right.len()), (64, 40));
    // The left values stand after length, kind, mode, start, peak, end, opened.
    assert_eq!(right[16..24], 0i64.to_le_bytes());
    assert_eq!(right[24..32], (-3i64).to_le_bytes());
    let row = [left, right].concat();
    assert_eq!(plan(&row, AMPLE), Ok(words(&[12, 19, 0, 1, 0, 1])));
}

/// The two hills of D cut after record 2, by hand.
fn hills_of_d(mode: u16) -> [Hill; 2] {
    // The figure of "open 1 value -3 floor 0 ceiling 100; close 1": -3, in mode 4 -3
    // modulo 2^32 = 4,294,967,296 - 3.
    let of_last = in_mode(mode, [-3, -3, -3, 4_294_967_293]);
    let none = nothing(mode);
    let left = Hill {
        mode,
        start: 0,
        peak: 0,
        end: 2,
        opened: 2,
        left: vec![],
        middle: none,
        right: vec![(10, 0, 100, none), (5, 0, 4, none)],
    };
    let right = Hill { mode, start: 2, peak: 0, end: 0, opened: 1, left: vec![none, of_last], middle: none, right: vec![] };
    [left, right]
}

#[test]
fn d_cut_after_record_2_byte_for_byte() {
    for mode in MODES {
        let [left, right] = hills_of_d(mode).map(|hill| hill.bytes());
        assert_eq!(cut_d(mode), [left.clone(), right.clone()]);
        // Joined: one closed record at level 0, with D's figure.
        let whole =
            Hill { mode, start: 0, peak: 0, end: 0, opened: 3, left: vec![], middle: in_mode(mode, FIGURES_OF_D), right: vec![] };
        assert_eq!(merge(&left, &right, 24), Ok(whole.bytes()), "mode {mode}");
        assert_eq!(summary(&log_d(), mode), whole.bytes(), "mode {mode}");
    }
}

#[test]
fn runs_of_d() {
    let numbers: [&[i64]; 4] = [&[12, 0, 0], &[15, 7, 15], &[12, 12, 7, 11], &[961, 72, 0]];
    for mode in MODES {
        let expected = run(mode, in_mode(mode, numbers));
        assert_eq!(runs(&cut_d(mode).concat(), run_length(mode)), Ok(expected), "mode {mode}");
    }
}

#[test]
fn figures_of_d_by_each_way() {
    for mode in MODES {
        let figure = in_mode(mode, FIGURES_OF_D);
        let [left, right] = cut_d(mode);
        let merged = merge(&left, &right, AMPLE).unwrap();
        assert_eq!(finish(&merged), Ok(figure));
        assert_eq!(finish(&summary(&log_d(), mode)), Ok(figure));
        let row = [left, right].concat();
        assert_eq!(merge_row(&row, AMPLE), Ok(merged));
        // One join, of depths 0 to 1: two levels.
        assert_eq!(work(&row), Ok((figure, 1, 2)));
    }
}

#[test]
fn no_bytes() {
    for mode in MODES {
        assert_eq!(summarise(&[], mode.into(), AMPLE), Ok(blank(mode)));
        assert_eq!(finish(&blank(mode)), Err(10));
        let row = [blank(mode), blank(mode)].concat();
        assert_eq!(merge_row(&row, 6), Ok(blank(mode)));
        assert_eq!(plan(&row, 0), Err(10));
        assert_eq!(runs(&row, 0), Err(10));
        assert_eq!(work(&row), Err(10));
    }
    assert_eq!(day(&[]), Err(10));
    assert_eq!(day_text(&[]), b"refused 10\n");
    assert_eq!(read_record(&[]), Err(3));
}

/// A log whose lowest fault is the given one, and its start, end and opened.
fn faulty(fault: u8) -> Vec<Vec<u8>> {
    match fault {
        7 => vec![open(0, 1, 0, 9), open(0, 1, 0, 9)],
        8 => vec![short(0, 1), close(0), short(0, 1), close(0)],
        11 => vec![close(1)],
        _ => unreachable!(),
    }
}

#[test]
fn the_small_faulty_logs() {
    // "'close 1' alone: 11"; "open 0, close 0 twice over: 8"; "open 0, open 0: 7".
    for fault in [7, 8, 11] {
        let records = faulty(fault);
        let log = records.concat();
        assert_eq!(day(&log), Err(fault));
        assert_eq!(day_text(&log), format!("refused {fault}\n").as_bytes());
        for mode in MODES {
            assert_eq!(finish(&summary(&records, mode)), Err(fault));
            let row = [summary(&records, mode), blank(mode)].concat();
            assert_eq!(plan(&row, 0), Err(fault));
            assert_eq!(runs(&row, 0), Err(fault));
            assert_eq!(work(&row), Err(fault));
        }
    }
    // open 0, open 0 starts at level 0 and ends at 1; twice over at 0 and 0.
    assert_eq!(summary(&faulty(7), 5), spoilt(5, 7, 0, 1, 2));
    assert_eq!(summary(&faulty(8), 4), spoilt(4, 8, 0, 0, 2));
}

#[test]
fn close_1_alone() {
    // From level 2 to its peak and end, level 1; nothing opened.
    for mode in MODES {
        let none = nothing(mode);
        let hill = Hill { mode, start: 2, peak: 1, end: 1, opened: 0, left: vec![none], middle: none, right: vec![] };
        assert_eq!(summary(&[close(1)], mode), hill.bytes());
    }
}

#[test]
fn depth_63_and_64() {
    assert_eq!(read_record(&open(63, 1, 2, 3)), Ok([1, 18, 63, 1, 2, 3, 0]), "depth 63 read");
    assert_eq!(read_record(&close(63)), Ok([2, 6, 63, 0, 0, 0, 0]));
    assert_eq!(read_record(&open(64, 1, 2, 3)), Err(3), "64 gives 3");
    assert_eq!(read_record(&short(64, 1)), Err(3));
    assert_eq!(read_record(&close(64)), Err(3));
    assert_eq!(summarise(&close(64), 1, AMPLE), Err(3));
}

#[test]
fn a_whole_log_down_to_depth_63() {
    // 64 records of one gram, each held by the one before: net 64, heaviest 64.
    let mut records: Vec<Vec<u8>> = (0..64).map(|depth| short(depth, 1)).collect();
    records.extend((0..64).rev().map(close));
    let [net, heaviest, eaten, _] = day(&records.concat()).unwrap();
    assert_eq!([net, heaviest, eaten], [64, 64, 64]);
    // The halves are full slopes: 24 + 20 × 64 and 24 + 8 × 64 bytes.
    let (down, up) = (summary(&records[..64], 1), summary(&records[64..], 1));
    assert_eq!((down.len(), up.len()), (1304, 536));
    assert_eq!(finish(&merge(&down, &up, 24).unwrap()), Ok(64));
    // The longest summary: from level 64 down to 1 and up again, 24 + 63 × 28.
    let mut valley: Vec<Vec<u8>> = (1..64).rev().map(close).collect();
    valley.extend((1..64).map(|depth| short(depth, 1)));
    assert_eq!(summary(&valley, 1).len(), 1788);
}

#[test]
fn chunks_of_65536_and_65537_bytes() {
    // 4,096 records of one gram, 4,095 of them held by the first: stamp 1 + 31 × 4,095.
    let mut log = longest_log();
    assert_eq!(day(&log), Ok([4096, 2, 4096, 126_946]));
    assert_eq!(day_text(&log), b"4096 2 4096 126946\n");
    assert_eq!(summarise(&log, 1, 24).map(|bytes| bytes.len()), Ok(24));
    log.push(0);
    assert_eq!(day(&log), Err(2));
    assert_eq!(day_text(&log), b"refused 2\n");
    assert_eq!(summarise(&log, 1, 24), Err(2));
}

/// A flat log with so many opened records of one gram, cut into chunks of at most
/// 65,536 bytes: the row of its summaries.
fn long_row(opened: usize, mode: u16) -> Vec<u8> {
    let records = reference::gen::logs::flat(opened);
    let chunk_summary = |chunk: &[reference::record::Record]| {
        let bytes = reference::record::encode_all(chunk);
        summarise(&bytes, mode.into(), AMPLE).unwrap()
    };
    records.chunks(5000).flat_map(chunk_summary).collect()
}

/// A run of one record of one gram with the default floor and ceiling, 0 and 10^9, that
/// holds so many of its kind, x aside.
fn run_of_one(mode: u16, held: i64) -> Vec<u8> {
    let heaviest = if held == 0 { [1, nothing(2), 1] } else { [2, 2, 1] };
    let eaten = [1 + held, 1 + held, 0, 1_000_000_000];
    let numbers: [&[i64]; 4] = [&[1 + held, 0, 0], &heaviest, &eaten, &[31, 1 + 31 * held, 0]];
    run(mode, in_mode(mode, numbers))
}

#[test]
fn opened_100_000_is_taken() {
    // 40 chunks of 5,000 records. Each but the last ends within a record that the next
    // closes, and the last closes the first record.
    let mut lines: Vec<_> = (1..40).map(|j| words(&[12, 19, j - 1, j, 1, 1])).collect();
    lines.push(words(&[12, 19, 0, 39, 0, 0]));
    for mode in MODES {
        let row = long_row(100_000, mode);
        // Heaviest 1 + 1; stamp 1 + 31 × 99,999.
        let figure = in_mode(mode, [100_000, 2, 100_000, 3_099_970]);
        let merged = merge_row(&row, AMPLE).unwrap();
        assert_eq!(finish(&merged), Ok(figure));
        assert_eq!(work(&row), Ok((figure, 40, 40)));
        assert_eq!(plan(&row, AMPLE), Ok(lines.concat()));
        // The first record holds 2,499 wholly in the first chunk, as many in the last.
        let expected = [run_of_one(mode, 0).repeat(39), run_of_one(mode, 2 * 2499)];
        assert_eq!(runs(&row, AMPLE), Ok(expected.concat()), "mode {mode}");
    }
}

#[test]
fn opened_100_001_gives_9() {
    for mode in MODES {
        let row = long_row(100_001, mode);
        let merged = spoilt(mode, 9, 0, 0, 100_001);
        assert_eq!(merge_row(&row, 16), Ok(merged.clone()));
        assert_eq!(finish(&merged), Err(9));
        for capacity in [0, AMPLE] {
            assert_eq!(plan(&row, capacity), Err(9));
            assert_eq!(runs(&row, capacity), Err(9));
        }
        assert_eq!(work(&row), Err(9));
    }
}

#[test]
fn how_many_pieces() {
    // One whole log among blanks: no join, so that no plan line is needed.
    for (count, answer) in [(1, Err(4)), (2, Ok(())), (64, Ok(())), (65, Err(4))] {
        for mode in MODES {
            let mut row = summary(&log_d(), mode);
            for _ in 1..count {
                row.extend(blank(mode));
            }
            let figure = in_mode(mode, FIGURES_OF_D);
            assert_eq!(plan(&row, 0), answer.map(|()| vec![]), "{count} pieces");
            assert_eq!(runs(&row, 0), answer.map(|()| vec![]));
            assert_eq!(work(&row), answer.map(|()| (figure, 0, 0)));
            assert_eq!(merge_row(&row, 24), answer.map(|()| summary(&log_d(), mode)));
        }
    }
}

#[test]
fn floor_equal_to_ceiling() {
    assert_eq!(read_record(&open(1, 5, 7, 7)), Ok([1, 18, 1, 5, 7, 7, 0]));
    assert_eq!(read_record(&open(1, 5, 8, 7)), Err(3));
}

// "Slips we have seen drawn on paper".

#[test]
fn slip_nothing_held_as_0_in_mode_2() {
    // "10 over -3 is 7, not 10"
    let records = [short(0, 10), short(1, -3), close(1), close(0)];
    let [_, heaviest, ..] = day(&records.concat()).unwrap();
    assert_eq!(heaviest, 7);
    for cut in 0..=4 {
        let (left, right) = records.split_at(cut);
        let row = [summary(left, 2), summary(right, 2)];
        let merged = merge(&row[0], &row[1], AMPLE).unwrap();
        assert_eq!(finish(&merged), Ok(7), "cut after {cut}");
        assert_eq!(work(&row.concat()).map(|answer| answer.0), Ok(7));
    }
}

#[test]
fn slip_floor_and_ceiling_applied_once_to_a_run() {
    // D's second record holds one of 0 grams, alone in a chunk: 5 + 0 is lowered to 4, and
    // 10 + 4 - 3 is 11. Applied once, by the first record's 0 and 100, it would be 12.
    let [left, right] = cut_d(5);
    let row = [left, summary(&[short(2, 0), close(2)], 5), right];
    assert_eq!(work(&row.concat()), Ok((11, 1, 2)));
    assert_eq!(finish(&merge_row(&row.concat(), 24).unwrap()), Ok(11));
}

#[test]
fn slip_the_join_of_neighbours_that_share_no_open_record() {
    // Chunk 1 closes what chunk 0 opened, chunk 2 opens another: 1 and 2 share none.
    let chunks = [vec![short(0, 1), short(1, 2)], vec![close(1)], vec![short(1, 3)], vec![close(1), close(0)]];
    let row: Vec<Vec<u8>> = chunks.iter().map(|chunk| summary(chunk, 1)).collect();
    let lines = [words(&[12, 19, 0, 1, 1, 1]), words(&[12, 19, 2, 3, 1, 1]), words(&[12, 19, 0, 3, 0, 0])];
    assert_eq!(plan(&row.concat(), 36), Ok(lines.concat()));
    assert_eq!(work(&row.concat()), Ok((6, 3, 3)));
}

#[test]
fn slip_the_level_at_the_peak_counted_on_both_slopes() {
    // close 1, a closed record at level 1, open 1: from level 2 to the peak 1 to 2.
    let chunk = [close(1), short(1, 4), close(1), open(1, 7, -8, 9)];
    let hill = Hill { mode: 1, start: 2, peak: 1, end: 2, opened: 2, left: vec![0], middle: 4, right: vec![(7, -8, 9, 0)] };
    assert_eq!(summary(&chunk, 1), hill.bytes());
    assert_eq!(hill.bytes().len(), 52);
}
