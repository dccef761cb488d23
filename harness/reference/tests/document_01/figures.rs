//! Figures and bytes worked out by hand, in the comments. `crate::calls` are the
//! reference's here and the library's in `compare`, which has this file too.

use crate::calls::{day, merge, plan, read_record, runs, summarise, work};
use reference::gen::raw::{close, log_d, nothing, open, run, run_length, short, words, Hill, MODES};

const AMPLE: usize = 4096;

#[test]
fn log_d_record_by_record() {
    let records = [
        [1, 18, 0, 10, 0, 100, 0],
        [1, 18, 1, 5, 0, 4, 0],
        [2, 6, 1, 0, 0, 0, 0],
        [1, 18, 1, -3, 0, 100, 0],
        [2, 6, 1, 0, 0, 0, 0],
        [2, 6, 0, 0, 0, 0, 0],
    ];
    let log = log_d().concat();
    let mut rest = &log[..];
    for expected in records {
        assert_eq!(read_record(rest), Ok(expected));
        rest = &rest[expected[1] as usize..];
    }
    assert!(rest.is_empty());
}

#[test]
fn an_unreadable_record_anywhere_is_3() {
    let good = [open(0, 10, 0, 100), close(0)].concat();
    let cases = [
        [close(64), good.clone()].concat(),
        [good.clone(), close(64)].concat(),
        [good.clone(), vec![0]].concat(),
        [good.clone(), vec![6, 0, 2, 0, 0]].concat(),
        good[..good.len() - 1].to_vec(),
    ];
    for chunk in cases {
        assert_eq!(summarise(&chunk, 1, 100), Err(3));
        assert_eq!(day(&chunk), Err(3));
    }
}

#[test]
fn levels_of_one_record() {
    // An open goes from level d to d+1, a close from d+1 to d; the peak is d.
    for depth in 0..64 {
        for mode in MODES {
            let none = nothing(mode);
            let down = Hill { right: vec![(7, -8, 9, none)], ..Hill::empty(mode, depth, depth, depth + 1, 1) };
            let opened = open(depth, 7, -8, 9);
            assert_eq!(summarise(&opened, mode.into(), 44), Ok(down.bytes()));
            let up = Hill::empty(mode, depth + 1, depth, depth, 0);
            let closed = close(depth);
            assert_eq!(summarise(&closed, mode.into(), 32), Ok(up.bytes()));
        }
    }
}

#[test]
fn the_first_close_of_its_depth_closes() {
    // 1 holds 2 and 8, 2 holds 4. Heaviest 1 + the greater of 2 + 4 and 8; stamp
    // 1 + 31 × (2 + 31 × 4 + 8).
    let log = [short(0, 1), short(1, 2), short(2, 4), close(2), close(1), short(1, 8), close(1), close(0)];
    assert_eq!(day(&log.concat()), Ok([15, 9, 15, 4155]));
}

#[test]
fn held_by_a_record_that_no_close_follows() {
    // open 1 holds the closed 2 and the unclosed 4, which holds the closed 8. Of held
    // records only the closed ones count yet.
    let chunk = [open(1, 1, -9, 9), short(2, 2), close(2), open(2, 4, -8, 8), short(3, 8), close(3)];
    for mode in MODES {
        let hill = Hill { right: vec![(1, -9, 9, 2), (4, -8, 8, 8)], ..Hill::empty(mode, 1, 1, 3, 4) };
        assert_eq!(summarise(&chunk.concat(), mode.into(), AMPLE), Ok(hill.bytes()));
    }
}

#[test]
fn records_held_by_none_that_the_chunk_opens() {
    // Level 2: 5 and -7, then its holder is closed; level 1: 3 over 4, then 6.
    let chunk = [
        short(2, 5),
        close(2),
        short(2, -7),
        close(2),
        close(1),
        short(1, 3),
        short(2, 4),
        close(2),
        close(1),
        short(1, 6),
        close(1),
    ];
    // 3 + 4 + 6; the greater of 7 and 6; 3 + 31 × 4 + 6.
    for (mode, left, middle) in [(1, -2, 13), (2, 5, 7), (5, -2, 13), (4, 4_294_967_294, 133)] {
        let hill = Hill { left: vec![left], middle, ..Hill::empty(mode, 2, 1, 1, 5) };
        assert_eq!(summarise(&chunk.concat(), mode.into(), AMPLE), Ok(hill.bytes()));
    }
}

#[test]
fn a_merge_closes_deepest_first() {
    // Unclosed: 10, which holds 1 so far, and in it 5 within 0 and 8, which holds 2. The
    // right adds 4 at level 2, closes both, and adds 6 at level 1 between.
    let left = Hill { right: vec![(10, 0, 15, 1), (5, 0, 8, 2)], ..Hill::empty(5, 0, 0, 2, 4) };
    let right = Hill { left: vec![4, 6], ..Hill::empty(5, 2, 0, 0, 3) };
    // 5 + 2 + 4 is lowered to 8; 10 + 1 + 8 + 6 to 15.
    let both = Hill { middle: 15, ..Hill::empty(5, 0, 0, 0, 7) };
    assert_eq!(merge(&left.bytes(), &right.bytes(), 24), Ok(both.bytes()));
    // Net: 10 + 1 + (5 + 2 + 4) + 6.
    let [left, right] = [left, right].map(|hill| Hill { mode: 1, middle: 0, ..hill }.bytes());
    let both = Hill { middle: 28, ..Hill::empty(1, 0, 0, 0, 7) };
    assert_eq!(merge(&left, &right, 24), Ok(both.bytes()));
}

#[test]
fn stamps_wrap() {
    // -1 is 2^32 - 1; 0 over it is 31 × (2^32 - 1) = -31, that is 2^32 - 31; two of
    // those held by 5 are 5 + 31 × (-62) = -1917, that is 4,294,965,379.
    let half = [short(1, 0), short(2, -1), close(2), close(1)].concat();
    let bytes = [short(0, 5), half.clone(), half, close(0)].concat();
    assert_eq!(day(&bytes).map(|figures| figures[3]), Ok(4_294_965_379));
}

#[test]
fn floors_and_ceilings_bind() {
    // 3 + 5 lowered to 6; -9 holds nothing and is not raised: 1 + 6 - 9 = -2, raised to -1.
    let bytes = [open(0, 1, -1, 8), open(1, 3, 0, 6), short(2, 5), close(2), close(1), open(1, -9, -2, 2), close(1), close(0)];
    // net 1 + 3 + 5 - 9 = 0; heaviest 1 + 3 + 5.
    assert_eq!(day(&bytes.concat()).map(|figures| [figures[0], figures[1], figures[2]]), Ok([0, 9, -1]));
}

#[test]
fn a_run_of_the_greatest_depth() {
    // 64 levels on both sides; each record has value 1, holds 2 so far, and the right
    // adds 3 at each level.
    let slopes = |mode: u16| {
        let down = Hill {
            mode,
            start: 0,
            peak: 0,
            end: 64,
            opened: 64 + 128,
            left: vec![],
            middle: nothing(mode),
            right: vec![(1, -1_000_000_000, 1_000_000_000, 2); 64],
        };
        let up = Hill { mode, start: 64, peak: 0, end: 0, opened: 192, left: vec![3; 64], middle: nothing(mode), right: vec![] };
        [down.bytes(), up.bytes()].concat()
    };
    let run_of = |mode: u16| runs(&slopes(mode), run_length(mode)).unwrap();
    // 64 × (1 + 2 + 3).
    assert_eq!(run_of(1), run(1, &[384, 0, 0]));
    // x + 64 values; beside x the 3 of the deepest level over 64 values.
    assert_eq!(run_of(2), run(2, &[67, 67, 64]));
    // With nothing inside, the deepest record still holds 2 + 3. For a number it gives
    // -10^9 to 10^9; in all records above it 6 are added, and the ceiling binds: from
    // -10^9 + 63 × 6 to 10^9.
    assert_eq!(run_of(5), run(5, &[384, 384, -1_000_000_000 + 378, 1_000_000_000]));
    for mode in MODES {
        assert_eq!(plan(&slopes(mode), 12), Ok(words(&[12, 19, 0, 1, 0, 63])));
    }
}

#[test]
fn nothing_beside_x_in_mode_2() {
    // open 0 value 10 / close 0, with a closed record between: A is nothing.
    let down = Hill {
        mode: 2,
        start: 0,
        peak: 0,
        end: 1,
        opened: 1,
        left: vec![],
        middle: nothing(2),
        right: vec![(10, 0, 9, nothing(2))],
    };
    let middle = Hill { mode: 2, start: 1, peak: 1, end: 1, opened: 1, left: vec![], middle: -3, right: vec![] };
    let up = Hill { mode: 2, start: 1, peak: 0, end: 0, opened: 0, left: vec![nothing(2)], middle: nothing(2), right: vec![] };
    let row = [down.bytes(), middle.bytes(), up.bytes()];
    assert_eq!(runs(&row.concat(), 30), Ok(run(2, &[10, i64::MIN, 10])));
    assert_eq!(work(&row.concat()), Ok((7, 1, 1)));
}

#[test]
fn the_heaviest_path_of_the_report() {
    // METR 2006-64, section III-B: the heaviest line of its example tree is
    // "12 contributed by the path [3, -5, 6, 8]". The path is the report's; the branch
    // beside each record is ours, and none may win.
    let records = [
        short(0, 3),
        short(1, 4),
        close(1),
        short(1, -5),
        short(2, 1),
        close(2),
        short(2, 6),
        short(3, -1),
        close(3),
        short(3, 8),
        close(3),
        close(2),
        close(1),
        short(1, 5),
        close(1),
        close(0),
    ];
    let [_, heaviest, ..] = day(&records.concat()).unwrap();
    assert_eq!(heaviest, 12);
}
