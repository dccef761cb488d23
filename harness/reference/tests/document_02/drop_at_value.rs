//! L3, "A drop is taken at its value", sentence by sentence; logs, summaries and runs are
//! worked out by hand. `crate::calls` are the reference's here and the library's in
//! `compare`, which has this file too.

use crate::calls::{day, finish, merge, merge_row, plan, runs, summarise, work};
use reference::gen::raw::{blank, close, log_d, nothing, open, run, short, spoilt, words, Hill, MODES};

const AMPLE: usize = 8192;
const LEAST: i32 = -1_000_000_000;
const GREATEST: i32 = 1_000_000_000;

/// The summary of a chunk in mode 5.
fn summary(records: &[Vec<u8>]) -> Vec<u8> {
    summarise(&records.concat(), 5, AMPLE).unwrap()
}

/// The summaries of chunks in mode 5, end to end.
fn row_of(chunks: &[&[Vec<u8>]]) -> Vec<u8> {
    chunks.iter().flat_map(|chunk| summary(chunk)).collect()
}

/// The eaten figure comes out of the whole log, of its chunks merged in one call and one
/// after another from either end, and of the work along their plan.
pub fn assert_eaten(chunks: &[&[Vec<u8>]], figure: i64) {
    let log = chunks.concat();
    assert_eq!(day(&log.concat()).map(|figures| figures[2]), Ok(figure));
    let whole = summary(&log);
    assert_eq!(finish(&whole), Ok(figure));
    assert_eq!(merge_row(&row_of(chunks), 24), Ok(whole.clone()));
    let join = |left: Vec<u8>, right: Vec<u8>| merge(&left, &right, AMPLE).unwrap();
    let sent = || chunks.iter().map(|chunk| summary(chunk));
    assert_eq!(sent().reduce(join), Some(whole.clone()));
    assert_eq!(sent().rev().reduce(|right, left| join(left, right)), Some(whole));
    assert_eq!(work(&row_of(chunks)).map(|answer| answer.0), Ok(figure));
}

/// The same for every cut of a log into two chunks and into three.
pub fn assert_eaten_however_cut(log: &[Vec<u8>], figure: i64) {
    for first in 0..=log.len() {
        for second in first..=log.len() {
            assert_eaten(&[&log[..first], &log[first..second], &log[second..]], figure);
        }
        assert_eaten(&[&log[..first], &log[first..]], figure);
    }
}

#[test]
fn uneaten_pellets_count_as_they_came_back() {
    // A meal of 300 g in a tank, and 40 g of it scooped out: 300 - 40 = 260, stamp 31 × 260.
    // Swallowed by their floor of 0, they would leave 300 eaten.
    let log = [open(0, 0, 0, 1000), open(1, 300, 0, 400), close(1), open(1, -40, 0, 400), close(1), close(0)];
    assert_eq!(day(&log.concat()), Ok([260, 300, 260, 8060]));
    assert_eaten_however_cut(&log, 260);
}

#[test]
fn a_record_that_holds_nothing_counts_as_it_is() {
    let records = [
        // Below its floor, above its ceiling, on them and between.
        (-3, 0, 100),
        (101, 0, 100),
        (0, 0, 100),
        (100, 0, 100),
        (50, 0, 100),
        // Floor equal to ceiling.
        (6, 7, 7),
        (7, 7, 7),
        (8, 7, 7),
        // As far off as can be.
        (LEAST, GREATEST, GREATEST),
        (GREATEST, LEAST, LEAST),
    ];
    for (value, floor, ceiling) in records {
        // Alone, and held by a record of 0 grams without limits that count.
        assert_eaten_however_cut(&[open(0, value, floor, ceiling), close(0)], value.into());
        assert_eaten_however_cut(&[open(0, 0, LEAST, GREATEST), open(1, value, floor, ceiling), close(1), close(0)], value.into());
    }
}

#[test]
fn a_record_that_holds_others_is_bound() {
    let records = [
        // (value, floor, ceiling), what it holds, its figure. Held 0 grams bind as others do.
        ((-3, 0, 100), 0, 0),
        ((-3, 0, 100), 3, 0),
        ((-3, 0, 100), 4, 1),
        ((5, 0, 4), 0, 4),
        ((5, 0, 4), -1, 4),
        ((5, 0, 4), -2, 3),
        ((5, 0, 4), -9, 0),
        ((6, 7, 7), 0, 7),
        ((8, 7, 7), 0, 7),
        ((LEAST, GREATEST, GREATEST), LEAST, 1_000_000_000),
        ((GREATEST, LEAST, LEAST), GREATEST, -1_000_000_000),
        ((GREATEST, LEAST, GREATEST), GREATEST, 1_000_000_000),
    ];
    for ((value, floor, ceiling), held, figure) in records {
        assert_eaten_however_cut(&[open(0, value, floor, ceiling), short(1, held), close(1), close(0)], figure);
    }
    // Two that add to 0: 5 + 3 - 3 is lowered to 4.
    assert_eaten_however_cut(&[open(0, 5, 0, 4), short(1, 3), close(1), short(1, -3), close(1), close(0)], 4);
}

#[test]
fn only_the_innermost_record_is_not_bound() {
    // 9 counts as it is; 1 + 9 is lowered to 8; 10 + 8 + 2 to 19.
    let log = [open(0, 10, 0, 19), open(1, 1, 0, 8), open(2, 9, 0, 4), close(2), close(1), short(1, 2), close(1), close(0)];
    assert_eaten_however_cut(&log, 19);
}

#[test]
fn what_is_held_may_be_in_another_chunk() {
    let (opened, held, closed) = ([open(0, 5, 0, 4)], [short(1, 0), close(1)], [close(0)]);
    // Neither the chunk that opens it nor the one that closes it has anything that it holds.
    assert_eaten(&[&opened, &held, &closed], 4);
    assert_eaten(&[&opened, &held[..1], &held[1..], &closed], 4);
    assert_eaten(&[&opened, &[], &closed], 5);
    assert_eaten(&[&opened, &closed], 5);
}

#[test]
fn d_however_it_is_cut() {
    assert_eaten_however_cut(&log_d(), 12);
}

#[test]
fn the_run_of_d_in_bytes() {
    // Length 38, kind 20, mode 5; then 12, 12, 7 and 11.
    let bytes: [u8; 38] = [
        38, 0, 20, 0, 5, 0, //
        12, 0, 0, 0, 0, 0, 0, 0, 12, 0, 0, 0, 0, 0, 0, 0, //
        7, 0, 0, 0, 0, 0, 0, 0, 11, 0, 0, 0, 0, 0, 0, 0,
    ];
    let row = row_of(&[&log_d()[..2], &log_d()[2..]]);
    for capacity in 0..38 {
        assert_eq!(runs(&row, capacity), Err(12));
    }
    for capacity in [38, 39, AMPLE] {
        assert_eq!(runs(&row, capacity), Ok(bytes.to_vec()));
    }
}

#[test]
fn nothing_held_in_bytes() {
    // open 0 value 10 floor 0 ceiling 100: length 44, kind 18, mode 5; start 0, peak 0, end 1;
    // one opened; the middle; value, floor, ceiling; held so far.
    let bytes: [u8; 44] = [
        44, 0, 18, 0, 5, 0, 0, 0, 0, 0, 1, 0, 1, 0, 0, 0, //
        0, 0, 0, 0, 0, 0, 0, 0x80, //
        10, 0, 0, 0, 0, 0, 0, 0, 100, 0, 0, 0, //
        0, 0, 0, 0, 0, 0, 0, 0x80,
    ];
    assert_eq!(summary(&log_d()[..1]), bytes);
    // With a record of 0 grams in it, it holds 0, which is not nothing.
    let mut holding = bytes;
    holding[12] = 2;
    holding[43] = 0;
    assert_eq!(summary(&[open(0, 10, 0, 100), short(1, 0), close(1)]), holding);
}

/// Records of these values, floors and ceilings, of the depths from 0 on: each is held by the
/// one before.
fn down(records: &[(i32, i32, i32)]) -> Vec<Vec<u8>> {
    (0..).zip(records).map(|(depth, &(value, floor, ceiling))| open(depth, value, floor, ceiling)).collect()
}

/// The closes of so many records.
fn up(count: u16) -> Vec<Vec<u8>> {
    (0..count).rev().map(close).collect()
}

/// Two chunks whose run has these numbers.
struct RunByHand {
    left: Vec<Vec<u8>>,
    right: Vec<Vec<u8>>,
    numbers: [i64; 4],
}

fn runs_by_hand() -> Vec<RunByHand> {
    let a = (10, 0, 100);
    let b = (5, 0, 4);
    let of = |left: &[Vec<u8>], right: &[Vec<u8>], numbers| RunByHand { left: left.to_vec(), right: right.to_vec(), numbers };
    let held_0 = [short(2, 0), close(2)];
    vec![
        // Nothing inside: 5, and 10 + 5 - 3. For numbers 0 to 4, and 10 - 3 more.
        of(&log_d()[..2], &log_d()[2..], [12, 12, 7, 11]),
        // One record: 5, and 0 to 4. z is above h.
        of(&down(&[b]), &up(1), [5, 5, 0, 4]),
        // -3 and 10 - 3; for numbers 0 to 100, and 10 to 110, which is lowered. z is below l.
        of(&down(&[a, (-3, 0, 100)]), &up(2), [7, 7, 10, 100]),
        // D's second record holds 0 so far, or gets it from the right: 5 + 0 is lowered to 4.
        of(&[down(&[a, b]), held_0.to_vec()].concat(), &log_d()[2..], [11, 12, 7, 11]),
        of(&log_d()[..2], &[&held_0[..], &log_d()[2..]].concat(), [11, 12, 7, 11]),
        // What the outer record holds does not bind the inner one: 10 + 7 more than 5, 0 and 4.
        of(&[down(&[a]), vec![short(1, 7), close(1), open(1, 5, 0, 4)]].concat(), &up(2), [22, 22, 17, 21]),
        // 9, 1 + 9 lowered to 8, 18; from 0, 1, 11; to 4, 5, 15.
        of(&down(&[a, (1, 0, 8), (9, 0, 4)]), &up(3), [18, 20, 11, 15]),
        // The outer record gives 6 whatever it holds.
        of(&down(&[(1, 6, 6), (9, 0, 4)]), &up(2), [6, 10, 6, 6]),
        // Values on the right at both levels: 5 + 1 lowered to 4, 10 + 4 + 2; from 12 to 16.
        of(&down(&[a, b]), &[short(2, 1), close(2), close(1), short(1, 2), close(1), close(0)], [16, 18, 12, 16]),
        // -3 - 9 raised to 0.
        of(&[down(&[(-3, 0, 100)]), vec![short(1, -9), close(1)]].concat(), &up(1), [0, -12, 0, 100]),
    ]
}

#[test]
fn runs_with_z_a_l_and_h() {
    for RunByHand { left, right, numbers } in runs_by_hand() {
        let row = row_of(&[&left, &right]);
        assert_eq!(runs(&row, 38), Ok(run(5, &numbers)));
        // With nothing between the chunks it gives z.
        assert_eaten(&[&left, &right], numbers[0]);
        assert_eaten(&[&left, &[], &right], numbers[0]);
    }
}

#[test]
fn a_run_gives_x_and_a_held_between_l_and_h() {
    for RunByHand { left, right, numbers: [_, a, l, h] } in runs_by_hand() {
        // A closed record of x grams between the chunks, one level above the highest depth.
        let line = plan(&row_of(&[&left, &right]), 12).unwrap();
        let level = u16::from(line[10]) + 1;
        for x in [-200, -13, -12, -9, -6, -5, -1, 0, 1, 2, 4, 11, 12, 90, 93, 200] {
            let between = [short(level, x), close(level)];
            assert_eaten(&[&left, &between, &right], (i64::from(x) + a).max(l).min(h));
        }
    }
}

#[test]
fn runs_of_two_lines() {
    // The second chunk closes 5, which holds nothing; the third closes 10, which holds the 5.
    let row = row_of(&[&down(&[(10, 0, 100), (5, 0, 4)]), &[close(1)], &[close(0)]]);
    assert_eq!(plan(&row, 24), Ok([words(&[12, 19, 0, 1, 1, 1]), words(&[12, 19, 0, 2, 0, 0])].concat()));
    let both = [run(5, &[5, 5, 0, 4]), run(5, &[10, 10, 0, 100])].concat();
    assert_eq!(runs(&row, 76), Ok(both));
    assert_eq!(runs(&row, 75), Err(12));
    assert_eq!(work(&row), Ok((15, 2, 2)));
}

#[test]
fn nothing_and_0_inside_differ() {
    // Between the chunks of D a hill at level 2, with nothing in it, which no chunk makes; then
    // with 0.
    for (middle, figure) in [(nothing(5), 12), (0, 11)] {
        let between = Hill { middle, ..Hill::empty(5, 2, 2, 2, 1) };
        let row = [summary(&log_d()[..2]), between.bytes(), summary(&log_d()[2..])].concat();
        assert_eq!(work(&row), Ok((figure, 1, 2)));
        let merged = Hill { middle: figure, ..Hill::empty(5, 0, 0, 0, 4) };
        assert_eq!(merge_row(&row, 24), Ok(merged.bytes()));
    }
}

/// Down to level 64: 63 records of one gram without limits that count, and within them one of
/// 2 grams, -5 to 1. The one that holds the records of a level may hold something so far.
fn down_to_64(holding: Option<usize>) -> Vec<u8> {
    let mut hill = Hill::empty(5, 0, 0, 64, 100);
    hill.right.fill((1, LEAST, GREATEST, nothing(5)));
    hill.right[63] = (2, -5, 1, nothing(5));
    if let Some(level) = holding {
        hill.right[level - 1].3 = 0;
    }
    hill.bytes()
}

#[test]
fn nothing_held_so_far_at_every_level() {
    let up = Hill::empty(5, 64, 0, 0, 0).bytes();
    // The innermost 2 as it is, and 63 more; for numbers from -5 to 1, and 63 more. Lowered to
    // 1 where it holds 0, which a 0 at another level does not do.
    for (holding, z) in [(None, 65), (Some(64), 64), (Some(63), 65), (Some(1), 65)] {
        let down = down_to_64(holding);
        let row = [down.clone(), up.clone()].concat();
        assert_eq!(runs(&row, 38), Ok(run(5, &[z, 65, 58, 64])));
        assert_eq!(work(&row), Ok((z, 1, 64)));
        let whole = Hill { middle: z, ..Hill::empty(5, 0, 0, 0, 100) };
        assert_eq!(merge(&down, &up, 24), Ok(whole.bytes()));
    }
}

/// A hill of levels 3, 1, 3 with a value at each place: left, left, middle, held, held.
fn hill_with(mode: u16, opened: u32, values: [i64; 5]) -> Vec<u8> {
    let mut hill = Hill::empty(mode, 3, 1, 3, opened);
    hill.left = values[..2].to_vec();
    hill.middle = values[2];
    hill.right[0].3 = values[3];
    hill.right[1].3 = values[4];
    hill.bytes()
}

#[test]
fn minus_2_63_stands_at_any_place_and_counts_0() {
    const NOTHING: i64 = i64::MIN;
    for place in 0..5 {
        let mut values = [0; 5];
        values[place] = NOTHING;
        // Finish says 11 of a hill that it takes.
        for (mode, refusal) in [(1, 5), (2, 11), (5, 11), (4, 5)] {
            assert_eq!(finish(&hill_with(mode, 6, values)), Err(refusal), "mode {mode}, place {place}");
        }
        // Two opened and both unclosed leave room for nothing else; a third for 10^9.
        let mut values = [NOTHING; 5];
        assert_eq!(finish(&hill_with(5, 2, values)), Err(11));
        for (value, opened, refusal) in [(1, 2, 5), (1_000_000_000, 3, 11), (1_000_000_001, 3, 5), (-1_000_000_000, 3, 11)] {
            values[place] = value;
            assert_eq!(finish(&hill_with(5, opened, values)), Err(refusal), "{value} at place {place}");
        }
        // One more is a number.
        values[place] = NOTHING + 1;
        assert_eq!(finish(&hill_with(5, 100_000, values)), Err(5));
    }
}

#[test]
fn the_middle_at_peak_0_is_nothing() {
    for (start, end) in [(0, 1), (1, 0), (0, 64), (64, 0)] {
        let with = |middle| Hill { middle, ..Hill::empty(5, start, 0, end, 100) }.bytes();
        assert_eq!(finish(&with(nothing(5))), Err(11));
        for number in [0, 1, -1, i64::MIN + 1] {
            assert_eq!(finish(&with(number)), Err(5));
        }
    }
}

#[test]
fn mode_3_gets_1_as_an_argument() {
    // Before the chunk is looked at, and the buffer.
    for chunk in [vec![], log_d().concat(), vec![0xff; 9], vec![0; 65_537]] {
        for capacity in [0, AMPLE] {
            assert_eq!(summarise(&chunk, 3, capacity), Err(1));
        }
    }
}

/// Summaries of mode 3, as they were and with mode 5's nothing.
fn summaries_of_mode_3() -> Vec<Vec<u8>> {
    let whole = Hill { middle: 14, ..Hill::empty(3, 0, 0, 0, 3) };
    let opened = Hill { right: vec![(10, 0, 100, 0)], ..Hill::empty(3, 0, 0, 1, 1) };
    let like_5 = Hill { mode: 3, ..Hill::empty(5, 0, 0, 1, 1) };
    vec![blank(3), spoilt(3, 7, 0, 1, 2), whole.bytes(), opened.bytes(), like_5.bytes()]
}

#[test]
fn mode_3_gets_5_within_a_summary() {
    for piece in summaries_of_mode_3() {
        assert_eq!(finish(&piece), Err(5));
        assert_eq!(merge(&piece, &piece, AMPLE), Err(5));
        assert_row_gets_5(&piece.repeat(2));
        // Before 6, beside any mode, and before 12.
        for mode in MODES {
            let other = blank(mode);
            assert_eq!(merge(&piece, &other, 0), Err(5));
            assert_eq!(merge(&other, &piece, 0), Err(5));
            assert_row_gets_5(&[&piece[..], &other].concat());
            assert_row_gets_5(&[&other[..], &piece].concat());
            assert_row_gets_5(&[&blank(5)[..], &other, &piece].concat());
        }
    }
}

fn assert_row_gets_5(row: &[u8]) {
    for capacity in [0, AMPLE] {
        assert_eq!(merge_row(row, capacity), Err(5));
        assert_eq!(plan(row, capacity), Err(5));
        assert_eq!(runs(row, capacity), Err(5));
    }
    assert_eq!(work(row), Err(5));
}
