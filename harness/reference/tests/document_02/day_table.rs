//! L1, "Log out of the day table", sentence by sentence; tables and logs are written out
//! by hand. `crate::calls` are the reference's here and the library's in `compare`, which
//! has this file too.

use crate::calls::{day, read_table, summarise, write_log};
use reference::gen::raw::{close, faulty_logs, line, log_d, longest_log, open, short, MODES};

/// As long as the longest result: no log written is longer, and no table read.
const AMPLE: usize = 65_520;
const LEAST: i32 = -1_000_000_000;
const GREATEST: i32 = 1_000_000_000;

/// The table of log D: depth, value, floor, ceiling of its three records.
const TABLE_D: [u8; 42] = [
    0, 0, 10, 0, 0, 0, 0, 0, 0, 0, 100, 0, 0, 0, //
    1, 0, 5, 0, 0, 0, 0, 0, 0, 0, 4, 0, 0, 0, //
    1, 0, 0xfd, 0xff, 0xff, 0xff, 0, 0, 0, 0, 100, 0, 0, 0,
];

/// The value, floor and ceiling that a line or a record of a depth has here: other ones
/// at each depth.
fn amounts(depth: u16) -> (i32, i32, i32) {
    let depth = i32::from(depth);
    (7 * depth - 100, -depth, depth + 300)
}

/// A line of a depth.
fn at(depth: u16) -> Vec<u8> {
    let (value, floor, ceiling) = amounts(depth);
    line(depth, value, floor, ceiling)
}

/// A table with lines of these depths.
fn table(depths: &[u16]) -> Vec<u8> {
    depths.iter().flat_map(|&depth| at(depth)).collect()
}

/// The record of such a line: its full open, what it holds, its close.
fn around(depth: u16, held: &[u8]) -> Vec<u8> {
    let (value, floor, ceiling) = amounts(depth);
    [open(depth, value, floor, ceiling), held.to_vec(), close(depth)].concat()
}

/// Records of the depths from one to another, each held by the one before.
fn chain(from: u16, to: u16) -> Vec<u8> {
    chain_around(from, to, Vec::new())
}

/// The same, and the last of them holds what is given.
fn chain_around(from: u16, to: u16, held: Vec<u8>) -> Vec<u8> {
    (from..=to).rev().fold(held, |held, depth| around(depth, &held))
}

/// The table and the log give each other, in buffers that they just fit.
fn assert_gives(table: &[u8], log: &[u8]) {
    assert_eq!(write_log(table, log.len()), Ok(log.to_vec()));
    assert_eq!(read_table(log, table.len()), Ok(table.to_vec()));
}

/// The table is refused, whatever buffer is lent.
fn assert_refused(table: &[u8], number: u8) {
    for capacity in [0, AMPLE] {
        assert_eq!(write_log(table, capacity), Err(number));
    }
}

#[test]
fn the_table_of_log_d_and_back() {
    assert_gives(&TABLE_D, &log_d().concat());
}

#[test]
fn closes_where_they_belong() {
    assert_gives(&table(&[0]), &around(0, &[]));
    assert_gives(&table(&[0, 1]), &around(0, &around(1, &[])));
    // After a line of the same depth, after deeper ones, and after the last line.
    let first = around(1, &[around(2, &[]), around(2, &around(3, &[]))].concat());
    let last = around(1, &around(2, &around(3, &[])));
    assert_gives(&table(&[0, 1, 2, 2, 3, 1, 1, 2, 3]), &around(0, &[first, around(1, &[]), last].concat()));
}

#[test]
fn lengths_that_are_no_multiple_of_14() {
    assert_refused(&[], 10);
    for length in (1..42).filter(|length| length % 14 != 0) {
        // Whether the lines before are good or not.
        assert_refused(&TABLE_D[..length], 3);
        assert_refused(&vec![0xff; length], 3);
    }
    // Two bytes, or twelve, could be a depth or the amounts.
    assert_refused(&[TABLE_D.to_vec(), vec![1, 0]].concat(), 3);
    assert_refused(&TABLE_D[..40], 3);
}

/// A line of depth 0 and lines of these depths; and its record around what is given.
fn under_a_first(depths: &[u16], held: &[u8]) -> (Vec<u8>, Vec<u8>) {
    ([at(0), table(depths)].concat(), around(0, held))
}

/// Tables of 2,730 lines, with their logs: flat; 1,364 pairs, one within the other, and a
/// line; 43 times 63 lines down to depth 63, and 20 lines.
fn longest() -> [(Vec<u8>, Vec<u8>); 3] {
    let down: Vec<u16> = (1..=63).collect();
    [
        under_a_first(&[1].repeat(2729), &around(1, &[]).repeat(2729)),
        under_a_first(&[[1, 2].repeat(1364), vec![1]].concat(), &[chain(1, 2).repeat(1364), around(1, &[])].concat()),
        under_a_first(&[down.repeat(43), down[..20].to_vec()].concat(), &[chain(1, 63).repeat(43), chain(1, 20)].concat()),
    ]
}

#[test]
fn tables_of_2730_lines_are_taken() {
    for (table, log) in longest() {
        assert_eq!((table.len(), log.len()), (38_220, 65_520));
        assert_gives(&table, &log);
        assert_eq!(write_log(&table, 65_519), Err(12));
        assert_refused(&table[1..], 3);
    }
}

#[test]
fn longer_tables_get_2() {
    for (table, _) in longest() {
        // Before 3, 13 and 12: one byte more, and a line more.
        assert_refused(&[table.clone(), vec![0]].concat(), 2);
        assert_refused(&[table.clone(), at(1)].concat(), 2);
        assert_refused(&[table.clone(), at(0)].concat(), 2);
    }
    for length in [38_221, 38_234, 65_536, 65_537, 70_000] {
        assert_refused(&vec![0xff; length], 2);
    }
    assert_refused(&vec![0xff; 38_220], 3);
}

#[test]
fn the_longest_logs_are_taken_by_the_other_calls() {
    for (table, log) in longest() {
        // Net adds all values.
        let value = |line: &[u8]| i64::from(i32::from_le_bytes(line[2..6].try_into().unwrap()));
        assert_eq!(day(&log).map(|figures| figures[0]), Ok(table.chunks(14).map(value).sum()));
        // The hill of a whole log has a middle value and no slopes.
        for mode in MODES {
            assert_eq!(summarise(&log, mode.into(), 24).map(|summary| summary.len()), Ok(24));
        }
    }
}

#[test]
fn depth_63_and_64() {
    let down: Vec<u16> = (0..=63).collect();
    assert_gives(&table(&down), &chain(0, 63));
    assert_gives(&table(&[&down[..], &[63]].concat()), &chain_around(0, 62, around(63, &[]).repeat(2)));
    // One deeper than the line before, but no readable record has this depth; and where 13
    // would come next.
    assert_refused(&table(&[&down[..], &[64]].concat()), 3);
    for depth in [64, 65, 256, 257, 0x3f00, 0x8000, 65_535] {
        assert_refused(&table(&[depth]), 3);
        assert_refused(&table(&[0, depth]), 3);
    }
}

#[test]
fn from_depth_63_back_to_each_depth() {
    let down: Vec<u16> = (0..=63).collect();
    for depth in 1..=63 {
        let last = [chain(depth, 63), around(depth, &[])].concat();
        assert_gives(&table(&[&down[..], &[depth]].concat()), &chain_around(0, depth - 1, last));
    }
}

#[test]
fn the_first_depth_is_not_0() {
    for depth in 1..=63 {
        assert_refused(&table(&[depth]), 13);
        assert_refused(&table(&[depth, depth]), 13);
    }
    assert_refused(&table(&[1, 0]), 13);
    assert_refused(&table(&[1, 1, 2]), 13);
}

#[test]
fn a_later_depth_is_0() {
    assert_refused(&table(&[0, 0]), 13);
    assert_refused(&table(&[0, 1, 0]), 13);
    assert_refused(&table(&[0, 1, 2, 0, 1]), 13);
    let down: Vec<u16> = (0..=63).collect();
    assert_refused(&table(&[&down[..], &[0]].concat()), 13);
}

#[test]
fn a_depth_more_than_one_above_the_line_before() {
    for above in 0..62 {
        let down: Vec<u16> = (0..=above).collect();
        assert_refused(&table(&[&down[..], &[above + 2]].concat()), 13);
        assert_refused(&table(&[&down[..], &[63]].concat()), 13);
        // The line before is what counts, not the deepest one yet.
        let fallen: Vec<u16> = [&down[..], &[above + 1, 1]].concat();
        assert_refused(&table(&[&fallen[..], &[3]].concat()), 13);
        assert!(write_log(&table(&[&fallen[..], &[2]].concat()), AMPLE).is_ok());
    }
}

#[test]
fn amounts_at_both_ends() {
    for near in [LEAST, LEAST + 1, -1, 0, 1, GREATEST - 1, GREATEST] {
        for (value, floor, ceiling) in [(near, LEAST, GREATEST), (0, near, GREATEST), (0, LEAST, near), (near, near, near)] {
            let log = [open(0, value, floor, ceiling), close(0)].concat();
            assert_gives(&line(0, value, floor, ceiling), &log);
        }
    }
    for far in [i32::MIN, LEAST - 1, GREATEST + 1, i32::MAX] {
        assert_refused(&line(0, far, LEAST, GREATEST), 3);
        assert_refused(&line(0, 0, far, GREATEST), 3);
        assert_refused(&line(0, 0, LEAST, far), 3);
        assert_refused(&line(0, 0, far, far), 3);
    }
}

#[test]
fn a_floor_above_its_ceiling() {
    for ceiling in [LEAST, -1, 0, 1, GREATEST - 1] {
        assert_refused(&line(0, 0, ceiling + 1, ceiling), 3);
        assert_refused(&line(0, 0, GREATEST, ceiling), 3);
        let log = [open(0, 0, ceiling, ceiling), close(0)].concat();
        assert_gives(&line(0, 0, ceiling, ceiling), &log);
    }
}

/// Lines that no readable record could hold: by its depth, an amount, its floor.
fn bad_lines() -> [Vec<u8>; 5] {
    [line(64, 0, 0, 0), line(1, GREATEST + 1, 0, 0), line(1, 0, LEAST - 1, 0), line(1, 0, 0, GREATEST + 1), line(1, 0, 1, 0)]
}

#[test]
fn a_line_that_gets_3_wins_wherever_it_stands() {
    // Tables that get 13 in the first, the second and the last line.
    for depths in [[1, 1, 2, 3], [0, 0, 1, 2], [0, 2, 1, 1], [0, 1, 2, 0], [0, 1, 1, 3]] {
        assert_refused(&table(&depths), 13);
        for bad in bad_lines() {
            for place in 0..=4 {
                let mut lines: Vec<Vec<u8>> = depths.iter().map(|&depth| at(depth)).collect();
                lines.insert(place, bad.clone());
                assert_refused(&lines.concat(), 3);
            }
        }
    }
}

#[test]
fn question_12_comes_last_and_exact_fits() {
    for capacity in 0..72 {
        assert_eq!(write_log(&TABLE_D, capacity), Err(12));
    }
    for capacity in [72, 73, 100, AMPLE] {
        assert_eq!(write_log(&TABLE_D, capacity), Ok(log_d().concat()));
    }
    let log = log_d().concat();
    for capacity in 0..42 {
        assert_eq!(read_table(&log, capacity), Err(12));
    }
    for capacity in [42, 43, 100, AMPLE] {
        assert_eq!(read_table(&log, capacity), Ok(TABLE_D.to_vec()));
    }
}

#[test]
fn a_short_record_has_the_default_floor_and_ceiling() {
    // Short ones within a full one, and around one.
    let log = [open(0, 1, 2, 3), short(1, -4), short(2, GREATEST), close(2), open(2, 5, 6, 7), close(2), close(1), close(0)];
    let table = [line(0, 1, 2, 3), line(1, -4, 0, GREATEST), line(2, GREATEST, 0, GREATEST), line(2, 5, 6, 7)].concat();
    assert_eq!(read_table(&log.concat(), 56), Ok(table.clone()));
    // Written again, they are full records.
    let full = [
        open(0, 1, 2, 3),
        open(1, -4, 0, GREATEST),
        open(2, GREATEST, 0, GREATEST),
        close(2),
        open(2, 5, 6, 7),
        close(2),
        close(1),
        close(0),
    ];
    assert_gives(&table, &full.concat());
}

#[test]
fn reading_back_has_no_limit_of_lines() {
    // 4,096 short records of one gram, all but the first held by it: 57,344 bytes.
    let table = [line(0, 1, 0, GREATEST), line(1, 1, 0, GREATEST).repeat(4095)].concat();
    assert_eq!(table.len(), 57_344);
    let log = longest_log();
    assert_eq!(read_table(&log, 57_344), Ok(table.clone()));
    assert_eq!(read_table(&log, 57_343), Err(12));
    // It is too long to be written again.
    assert_refused(&table, 2);
    // 2,731 lines of it are read, and not written; 2,730 are.
    let lines = |count: usize| [short(0, 1), [short(1, 1), close(1)].concat().repeat(count - 1), close(0)].concat();
    assert_eq!(read_table(&lines(2731), AMPLE), Ok(table[..38_234].to_vec()));
    assert_refused(&table[..38_234], 2);
    assert_eq!(read_table(&lines(2730), AMPLE), Ok(table[..38_220].to_vec()));
    assert_eq!(write_log(&table[..38_220], AMPLE).map(|log| log.len()), Ok(65_520));
}

#[test]
fn a_log_with_a_fault_gets_its_number() {
    for (log, number) in faulty_logs() {
        // The buffer is looked at last.
        for capacity in [0, AMPLE] {
            assert_eq!(read_table(&log, capacity), Err(number), "{} bytes", log.len());
        }
        assert_eq!(day(&log), Err(number));
    }
}
