//! L8: "Summaries carry the floor in full and those already sent keep their meaning." Old
//! summaries, in bytes by document 01's layout, in one row with new ones; figures are worked
//! out by hand. `crate::calls` are the reference's here and the library's in `compare`, which
//! has this file too.

use crate::calls::{finish, merge, merge_row, plan, runs, summarise, work};
use crate::short_records::with_old_floor;
use reference::gen::raw::{blank, close, in_mode, nothing, open, run, run_length, short, words, Hill, MODES, RANGE};

const AMPLE: usize = 8192;
const LEAST: i32 = -1_000_000_000;
const GREATEST: i32 = 1_000_000_000;

/// open 0 value 5, length 10, summarised in mode 5 before: length 44, kind 18, mode 5; start 0,
/// peak 0, end 1; one opened; the middle; value 5, floor -1,000,000,000, ceiling 1,000,000,000;
/// held so far.
const EATEN_BEFORE: [u8; 44] = [
    44, 0, 18, 0, 5, 0, 0, 0, 0, 0, 1, 0, 1, 0, 0, 0, //
    0, 0, 0, 0, 0, 0, 0, 0x80, //
    5, 0, 0, 0, 0, 54, 101, 196, 0, 202, 154, 59, //
    0, 0, 0, 0, 0, 0, 0, 0x80,
];

/// The same in mode 1, where nothing held is 0.
const NET_BEFORE: [u8; 44] = [
    44, 0, 18, 0, 1, 0, 0, 0, 0, 0, 1, 0, 1, 0, 0, 0, //
    0, 0, 0, 0, 0, 0, 0, 0, //
    5, 0, 0, 0, 0, 54, 101, 196, 0, 202, 154, 59, //
    0, 0, 0, 0, 0, 0, 0, 0,
];

/// The summary of records, as it is made now.
fn summary(records: &[Vec<u8>], mode: u16) -> Vec<u8> {
    summarise(&records.concat(), mode.into(), AMPLE).expect("readable records")
}

/// The summary of one unclosed record of a depth and a value, of length 10, as it was made
/// before.
fn unclosed_before(mode: u16, depth: u16, value: i32) -> Vec<u8> {
    let right = vec![(value, LEAST, GREATEST, nothing(mode))];
    Hill { right, ..Hill::empty(mode, depth, depth, depth + 1, 1) }.bytes()
}

/// A log's one summary.
fn whole(mode: u16, opened: u32, figure: i64) -> Vec<u8> {
    Hill { middle: figure, ..Hill::empty(mode, 0, 0, 0, opened) }.bytes()
}

/// A row comes to a figure, and to this summary of the whole log: merged in one call, from the
/// left and from the right, finished, and by the work along its plan.
fn assert_comes_to(row: &[Vec<u8>], mode: u16, opened: u32, figure: i64) {
    let due = whole(mode, opened, figure);
    let join = |left: Vec<u8>, right: Vec<u8>| merge(&left, &right, AMPLE).expect("of one mode");
    assert_eq!(merge_row(&row.concat(), 24), Ok(due.clone()));
    assert_eq!(row.iter().cloned().reduce(join), Some(due.clone()));
    assert_eq!(row.iter().cloned().rev().reduce(|right, left| join(left, right)), Some(due.clone()));
    assert_eq!(finish(&due), Ok(figure));
    assert_eq!(work(&row.concat()).map(|answer| answer.0), Ok(figure));
}

#[test]
fn an_old_summary_is_that_of_a_full_record() {
    for (mode, before) in [(5, EATEN_BEFORE), (1, NET_BEFORE)] {
        assert_eq!(unclosed_before(mode, 0, 5), before);
        // Whoever counts on the old floor sends length 18 with it: the same summary is made now.
        assert_eq!(summary(&[with_old_floor(0, 5)], mode), before);
        // Of the same record at length 10 the floor is another, and nothing else.
        let mut now = before;
        now[28..32].copy_from_slice(&[0; 4]);
        assert_eq!(summary(&[short(0, 5)], mode), now);
        assert_ne!(now, before);
        // It is a summary: finish says that the log is not whole.
        assert_eq!(finish(&before), Err(11));
    }
}

#[test]
fn a_record_that_was_sent_before_keeps_its_floor() {
    // 5 over -8: -3, and 0 where the record was opened by a new stretch.
    let rest = [short(1, -8), close(1), close(0)];
    let [eaten, net] = [5, 1].map(|mode| summary(&rest, mode));
    assert_eq!(merge(&EATEN_BEFORE, &eaten, 24), Ok(whole(5, 2, -3)));
    assert_comes_to(&[EATEN_BEFORE.to_vec(), eaten.clone()], 5, 2, -3);
    assert_comes_to(&[summary(&[short(0, 5)], 5), eaten], 5, 2, 0);
    assert_comes_to(&[NET_BEFORE.to_vec(), net.clone()], 1, 2, -3);
    assert_comes_to(&[summary(&[short(0, 5)], 1), net], 1, 2, -3);
    // Blanks between, as both sides write them.
    let row = [EATEN_BEFORE.to_vec(), blank(5), summary(&rest[..2], 5), blank(5), summary(&rest[2..], 5)];
    assert_comes_to(&row, 5, 2, -3);
}

#[test]
fn only_eaten_tells_them_apart() {
    // Net and heaviest 5 - 8, stamp 5 - 31 × 8.
    let rest = [short(1, -8), close(1), close(0)];
    for mode in MODES {
        let due = |eaten| in_mode(mode, [-3, -3, eaten, RANGE - 243]);
        assert_comes_to(&[unclosed_before(mode, 0, 5), summary(&rest, mode)], mode, 2, due(-3));
        assert_comes_to(&[summary(&[short(0, 5)], mode), summary(&rest, mode)], mode, 2, due(0));
    }
}

/// open 0 of a value | open 1 value -8, and in it 2, closed | close 1, close 0: the summaries in
/// mode 5, the first and the second made before or not. What only closes is the same in both.
fn three_stretches(value: i32, [first, second]: [bool; 2]) -> [Vec<u8>; 3] {
    let inner = |opened: Vec<u8>| [opened, short(2, 2), close(2)];
    [
        if first { unclosed_before(5, 0, value) } else { summary(&[short(0, value)], 5) },
        summary(&inner(if second { with_old_floor(1, -8) } else { short(1, -8) }), 5),
        summary(&[close(1), close(0)], 5),
    ]
}

#[test]
fn each_record_has_the_floor_of_the_stretch_that_opened_it() {
    // The inner one comes to -8 + 2: -6 if it is old, else 0. The outer one adds its value, and
    // is raised to 0 if it is new.
    for (value, figures) in [(3, [3, 3, 0, -3]), (-5, [0, -5, 0, -11])] {
        for (which, figure) in [[false, false], [true, false], [false, true], [true, true]].into_iter().zip(figures) {
            assert_comes_to(&three_stretches(value, which), 5, 3, figure);
        }
    }
}

#[test]
fn plan_and_runs_of_old_and_new() {
    // The inner record's line comes first; the outer one's x is its outcome.
    let lines = [words(&[12, 19, 1, 2, 1, 1]), words(&[12, 19, 0, 2, 0, 0])].concat();
    let [far, most] = [LEAST, GREATEST].map(i64::from);
    for (first, outer) in [(false, [3, 3, 0, most]), (true, [3, 3, far, most])] {
        for (second, inner) in [(false, [0, -6, 0, most]), (true, [-6, -6, far, most])] {
            let row = three_stretches(3, [first, second]).concat();
            assert_eq!(plan(&row, 24), Ok(lines.clone()));
            assert_eq!(runs(&row, 76), Ok([run(5, &inner), run(5, &outer)].concat()));
            assert_eq!(work(&row).map(|(_, joins, levels)| (joins, levels)), Ok((2, 2)));
        }
    }
}

#[test]
fn merged_stretches_carry_each_floor_in_full() {
    for mode in MODES {
        let none = nothing(mode);
        let [outer, inner] = [(0, 5), (1, -8)].map(|(depth, value)| {
            let now = summary(&[short(depth, value)], mode);
            [(now, 0), (unclosed_before(mode, depth, value), LEAST)]
        });
        for (left, left_floor) in &outer {
            for (right, right_floor) in &inner {
                let right_side = vec![(5, *left_floor, GREATEST, none), (-8, *right_floor, GREATEST, none)];
                let both = Hill { right: right_side, ..Hill::empty(mode, 0, 0, 2, 2) };
                assert_eq!(merge(left, right, 64), Ok(both.bytes()));
                assert_eq!(merge_row(&[&left[..], right].concat(), 64), Ok(both.bytes()));
                // Merged with a blank on either side, and with what a record holds further on.
                assert_eq!(merge(&blank(mode), &both.bytes(), 64), Ok(both.bytes()));
                assert_eq!(merge(&both.bytes(), &blank(mode), 64), Ok(both.bytes()));
                let mut holding = both.clone();
                (holding.opened, holding.right[1].3) = (3, 1);
                assert_eq!(merge(&both.bytes(), &summary(&[short(2, 1), close(2)], mode), 64), Ok(holding.bytes()));
            }
        }
    }
}

#[test]
fn what_an_old_stretch_closed_is_folded() {
    // 4 over -9, opened and closed by one stretch: -5 before, 0 now. No record of it is carried.
    let closed = |figure| Hill { middle: figure, ..Hill::empty(5, 1, 1, 1, 2) }.bytes();
    assert_eq!(summary(&[short(1, 4), short(2, -9), close(2), close(1)], 5), closed(0));
    assert_eq!(summary(&[with_old_floor(1, 4), with_old_floor(2, -9), close(2), close(1)], 5), closed(-5));
    // Within 10 they are 10 - 5 and 10 + 0, whenever the 10 was opened.
    for outer in [summary(&[short(0, 10)], 5), unclosed_before(5, 0, 10)] {
        let row = |between: Vec<u8>| [outer.clone(), between, summary(&[close(0)], 5)];
        assert_comes_to(&row(closed(-5)), 5, 3, 5);
        assert_comes_to(&row(closed(0)), 5, 3, 10);
    }
    // Within 1 they are 1 - 5, raised to 0 if the 1 is new.
    for (outer, figure) in [(summary(&[short(0, 1)], 5), 0), (unclosed_before(5, 0, 1), -4)] {
        assert_comes_to(&[outer, closed(-5), summary(&[close(0)], 5)], 5, 3, figure);
    }
}

#[test]
fn two_unclosed_in_one_old_stretch() {
    // 5 over -8 | close 1, close 0. Old: for numbers from -10^9, 5 more, to 10^9. New: from 0.
    let none = nothing(5);
    let before = Hill { right: vec![(5, LEAST, GREATEST, none), (-8, LEAST, GREATEST, none)], ..Hill::empty(5, 0, 0, 2, 2) };
    let up = summary(&[close(1), close(0)], 5);
    let now = summary(&[short(0, 5), short(1, -8)], 5);
    for (down, numbers) in [(before.bytes(), [-3, -3, -999_999_995, 1_000_000_000]), (now, [0, -3, 5, 1_000_000_000])] {
        let row = [down, up.clone()];
        assert_eq!(runs(&row.concat(), run_length(5)), Ok(run(5, &numbers)));
        assert_comes_to(&row, 5, 2, numbers[0]);
    }
}

#[test]
fn an_old_stretch_that_is_too_long_in_full() {
    // 5, and in it 4,095 of -1, closed: 10 + 4,095 × 16 bytes; in full 18 + 4,095 × 24.
    let stretch = |opened: fn(u16, i32) -> Vec<u8>| [opened(0, 5), [opened(1, -1), close(1)].concat().repeat(4095)].concat();
    let [chunk, in_full] = [short as fn(u16, i32) -> Vec<u8>, with_old_floor].map(stretch);
    assert_eq!([chunk.len(), in_full.len()], [65_530, 98_298]);
    // In mode 5 before: 4,096 opened; value 5, the old floor and the ceiling; -4,095 held so far.
    let bytes: [u8; 44] = [
        44, 0, 18, 0, 5, 0, 0, 0, 0, 0, 1, 0, 0, 16, 0, 0, //
        0, 0, 0, 0, 0, 0, 0, 0x80, //
        5, 0, 0, 0, 0, 54, 101, 196, 0, 202, 154, 59, //
        1, 0xf0, 0xff, 0xff, 0xff, 0xff, 0xff, 0xff,
    ];
    for (mode, figure) in [(5, 0), (1, -4090)] {
        let with_floor = |floor| Hill { right: vec![(5, floor, GREATEST, -4095)], ..Hill::empty(mode, 0, 0, 1, 4096) }.bytes();
        let [now, before] = [0, LEAST].map(with_floor);
        assert_eq!(before == bytes, mode == 5);
        assert_eq!(summarise(&chunk, mode.into(), 44), Ok(now.clone()));
        assert_eq!(summarise(&in_full, mode.into(), 44), Err(2));
        // 5 - 4,095; of all new ones eaten is raised to 0.
        let up = summary(&[close(0)], mode);
        assert_comes_to(&[before.clone(), up.clone()], mode, 4096, -4090);
        assert_comes_to(&[now, up], mode, 4096, figure);
        // Cut in two, after 2,729 of them, it is taken, and comes to the old summary.
        let (left, right) = in_full.split_at(18 + 2729 * 24);
        let [left, right] = [left, right].map(|half| summarise(half, mode.into(), 44).expect("at most 65,536 bytes"));
        assert_eq!(merge(&left, &right, 44), Ok(before));
    }
}

#[test]
fn other_floors_are_carried_as_they_are() {
    // A record of 2 grams and each floor that one may have, over -9: -7 or the floor.
    for (floor, figure) in
        [(LEAST, -7), (LEAST + 1, -7), (-8, -7), (-7, -7), (-6, -6), (-1, -1), (0, 0), (1, 1), (GREATEST, 1_000_000_000)]
    {
        let opened = Hill { right: vec![(2, floor, GREATEST, nothing(5))], ..Hill::empty(5, 0, 0, 1, 1) }.bytes();
        assert_eq!(summary(&[open(0, 2, floor, GREATEST)], 5), opened);
        assert_comes_to(&[opened, summary(&[short(1, -9), close(1), close(0)], 5)], 5, 2, figure);
    }
}

#[test]
fn at_every_depth() {
    // So many records of -1 gram, each holding the next, by turns from a new and from an old
    // stretch; the last holds nothing. New ones come to 0, old ones to one less than what they hold.
    let is_new = |depth: u16| depth.is_multiple_of(2);
    for levels in 1..=64 {
        let opened = |depth| if is_new(depth) { summary(&[short(depth, -1)], 5) } else { unclosed_before(5, depth, -1) };
        let mut row: Vec<Vec<u8>> = (0..levels).map(opened).collect();
        let figure = (0..levels - 1).rev().fold(-1, |held, depth| if is_new(depth) { 0 } else { held - 1 });
        let up: Vec<Vec<u8>> = (0..levels).rev().map(close).collect();
        row.push(summary(&up, 5));
        // 65 are too many for one call; the first two are merged.
        if row.len() > 64 {
            let merged = merge(&row[0], &row[1], 64).expect("of one mode");
            row.splice(..2, [merged]);
        }
        assert_comes_to(&row, 5, levels.into(), figure);
    }
}
