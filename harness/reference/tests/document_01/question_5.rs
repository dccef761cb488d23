//! Question 5, clause by clause: what stands at an edge and what is past it, in each
//! mode; in mode 5 by document 02.

use reference::gen::raw::{blank, nothing, spoilt, words, Hill, MODES};
use reference::layout::{decode, encode, is_summary};

const GRAMS: i64 = 1_000_000_000;

/// Accepted bytes are also read and written back as they were.
fn accepted(bytes: &[u8]) -> bool {
    let summary = decode(bytes);
    assert_eq!(summary.is_some(), is_summary(bytes));
    if let Some(summary) = &summary {
        assert_eq!(encode(summary), bytes);
    }
    summary.is_some()
}

/// A hill with both slopes: levels 5, 3, 4. One unclosed record, five opened.
fn hill(mode: u16) -> Hill {
    Hill { mode, start: 5, peak: 3, end: 4, opened: 5, left: vec![1, 2], middle: 3, right: vec![(4, 5, 6, 7)] }
}

#[test]
fn layout_and_mode() {
    for mode in MODES {
        let three = [blank(mode), spoilt(mode, 7, 1, 2, 3), hill(mode).bytes()];
        for bytes in three {
            assert!(accepted(&bytes));
            // Cut short, or with a byte more, or with another length in it.
            for length in 0..bytes.len() {
                assert!(!accepted(&bytes[..length]));
            }
            assert!(!accepted(&[bytes.clone(), vec![0]].concat()));
            for length in 0..200u16 {
                let other = [words(&[length]), bytes[2..].to_vec()].concat();
                assert_eq!(accepted(&other), usize::from(length) == bytes.len());
            }
            // Another kind: none of the three has the length of another.
            for kind in (0..40).chain([0x0110, 0x1000, 0xffff]) {
                let other = [bytes[..2].to_vec(), words(&[kind]), bytes[4..].to_vec()].concat();
                assert_eq!(accepted(&other), other == bytes);
            }
        }
    }
}

#[test]
fn lengths_that_do_not_suit_the_kind() {
    // The length field tells the truth. The hill's fields are those of a flat hill at
    // level 7 with 5 opened, whose length is 24.
    for (kind, right_length) in [(16, 6), (17, 16), (18, 24)] {
        for length in 6u16..80 {
            let mut bytes = words(&[length, kind, 1, 7, 7, 7, 5, 0]);
            bytes.resize(usize::from(length), 0);
            assert_eq!(accepted(&bytes), length == right_length, "{kind}: {length}");
        }
    }
}

#[test]
fn modes() {
    for mode in (0..10).chain([257, 0x0100, 0x8001, 0xffff]) {
        let expected = [1, 2, 4, 5].contains(&mode);
        assert_eq!(accepted(&blank(mode)), expected);
        assert_eq!(accepted(&spoilt(mode, 7, 1, 2, 3)), expected);
        assert_eq!(accepted(&hill(mode).bytes()), expected);
    }
}

#[test]
fn spoilt_clauses() {
    for mode in MODES {
        for fault in (0..20).chain([0x0107, 0xffff]) {
            let expected = (7..=9).contains(&fault);
            assert_eq!(accepted(&spoilt(mode, fault, 0, 0, 100_001)), expected);
        }
        for level in [0, 1, 63, 64, 65, 66, 128, 256, 0xffff] {
            let expected = level <= 64;
            assert_eq!(accepted(&spoilt(mode, 7, level, 0, 1)), expected);
            assert_eq!(accepted(&spoilt(mode, 7, 0, level, 1)), expected);
        }
        for opened in [0, 1, 99_999, 100_000, 100_001, 100_002, u32::MAX] {
            let expected = opened <= 100_001;
            assert_eq!(accepted(&spoilt(mode, 7, 0, 0, opened)), expected);
            assert_eq!(accepted(&spoilt(mode, 8, 0, 0, opened)), expected);
            assert_eq!(accepted(&spoilt(mode, 9, 0, 0, opened)), opened == 100_001);
        }
    }
}

#[test]
fn hill_levels() {
    for mode in MODES {
        let cases = [
            // start, peak, end
            (0, 0, 0, true),
            (64, 64, 64, true),
            (65, 65, 65, false),
            (64, 1, 64, true),
            (65, 1, 64, false),
            (64, 1, 65, false),
            (65, 64, 64, false),
            (64, 64, 65, false),
            (64, 0, 0, true),
            (0, 0, 64, true),
            (65, 0, 0, false),
            (0, 0, 65, false),
            // Peak above start or end: the length is made to fit all the same.
            (3, 4, 5, false),
            (5, 4, 3, false),
            (3, 4, 4, false),
            (4, 4, 3, false),
            // "a peak of 0 has start or end 0"
            (1, 0, 1, false),
            (1, 0, 0, true),
            (0, 0, 1, true),
            (7, 0, 2, false),
            (7, 1, 2, true),
        ];
        for (start, peak, end, expected) in cases {
            let bytes = Hill::empty(mode, start, peak, end, 100).bytes();
            assert_eq!(accepted(&bytes), expected, "{mode}: {start} {peak} {end}");
        }
        assert_eq!(Hill::empty(mode, 64, 1, 64, 100).bytes().len(), 1788);
    }
}

#[test]
fn peak_above_an_end_with_a_length_that_adds_up() {
    // Levels 8, 3, 1: 24 + 8 × 5 + 20 × (-2) = 24.
    let mut bytes = words(&[24, 18, 1, 8, 3, 1, 1, 0]);
    bytes.resize(24, 0);
    assert!(!accepted(&bytes));
    // Levels 1, 6, 8: 24 + 8 × (-5) + 20 × 2 = 24.
    let mut bytes = words(&[24, 18, 1, 1, 6, 8, 2, 0]);
    bytes.resize(24, 0);
    assert!(!accepted(&bytes));
}

#[test]
fn records_meet_the_ranges() {
    let near = [-GRAMS as i32, 0, GRAMS as i32];
    let far = [i32::MIN, -GRAMS as i32 - 1, GRAMS as i32 + 1, i32::MAX];
    for mode in MODES {
        // The first or the last of three unclosed records is tried.
        for place in [0, 2] {
            let with = |value: i32, floor: i32, ceiling: i32| {
                let mut hill = Hill::empty(mode, 2, 2, 5, 9);
                let held = hill.right[place].3;
                hill.right[place] = (value, floor, ceiling, held);
                accepted(&hill.bytes())
            };
            for number in near {
                assert!(with(number, 0, 0));
                assert!(with(0, number, number));
                assert!(with(0, -GRAMS as i32, number));
                assert!(with(0, number, GRAMS as i32));
            }
            for number in far {
                assert!(!with(number, 0, 0));
                assert!(!with(0, number, number));
                assert!(!with(0, -GRAMS as i32, number));
                assert!(!with(0, number, GRAMS as i32));
            }
            assert!(with(0, 7, 7));
            assert!(!with(0, 8, 7));
        }
    }
}

#[test]
fn opened_of_a_hill() {
    for mode in MODES {
        for level in [0, 1, 64] {
            // "not 0 if start = peak = end"
            for (opened, expected) in [(0, false), (1, true), (100_000, true), (100_001, false), (u32::MAX, false)] {
                let bytes = Hill::empty(mode, level, level, level, opened).bytes();
                assert_eq!(accepted(&bytes), expected, "{mode}: {level} {opened}");
            }
        }
        // Closes alone open nothing.
        assert!(accepted(&Hill::empty(mode, 3, 1, 1, 0).bytes()));
        // Opened is at least the unclosed records: 10^9 × unclosed in modes 1, 2 and 5.
        assert!(accepted(&Hill::empty(mode, 1, 1, 4, 3).bytes()));
        assert!(!accepted(&Hill::empty(mode, 1, 1, 4, 2).bytes()));
        assert!(accepted(&Hill::empty(mode, 0, 0, 64, 64).bytes()));
        assert!(!accepted(&Hill::empty(mode, 0, 0, 64, 63).bytes()));
    }
}

#[test]
fn the_middle_at_peak_0() {
    for mode in MODES {
        let with = |start: u16, peak: u16, end: u16, middle: i64| {
            let mut hill = Hill::empty(mode, start, peak, end, 100);
            hill.middle = middle;
            accepted(&hill.bytes())
        };
        for (start, end) in [(0, 1), (1, 0), (0, 64), (64, 0)] {
            assert!(with(start, 0, end, nothing(mode)));
            assert!(!with(start, 0, end, 1));
            // A stored 0 is nothing in modes 1 and 4, a number in modes 2 and 5.
            assert_eq!(with(start, 0, end, 0), [1, 4].contains(&mode));
        }
        // "unless start = end = 0", and elsewhere than at peak 0.
        for middle in [0, 1, nothing(mode)] {
            assert!(with(0, 0, 0, middle));
            assert!(with(2, 1, 1, middle));
            assert!(with(1, 1, 2, middle));
        }
    }
}

#[test]
fn values_in_modes_1_2_and_5() {
    for mode in [1, 2, 5] {
        // Six opened, two unclosed: 4 × 10^9 are left for five values.
        let with = |values: [i64; 5]| {
            let mut hill = Hill::empty(mode, 3, 1, 3, 6);
            hill.left = values[..2].to_vec();
            hill.middle = values[2];
            hill.right[0].3 = values[3];
            hill.right[1].3 = values[4];
            accepted(&hill.bytes())
        };
        for place in 0..5 {
            let one = |value: i64| {
                let mut values = [0; 5];
                values[place] = value;
                with(values)
            };
            assert!(one(4 * GRAMS) && one(-4 * GRAMS));
            assert!(!one(4 * GRAMS + 1) && !one(-4 * GRAMS - 1));
            assert!(!one(i64::MAX) && !one(i64::MIN + 1));
            // "-2^63 in mode 2 counts 0", and in mode 5; elsewhere its absolute value is 2^63.
            assert_eq!(one(i64::MIN), mode != 1);
        }
        // The absolute values add, and do not cancel.
        assert!(with([GRAMS, -GRAMS, GRAMS, -GRAMS, 0]));
        assert!(!with([GRAMS, -GRAMS, GRAMS, -GRAMS, 1]));
        assert!(!with([GRAMS, -GRAMS, GRAMS, -GRAMS, -1]));
        // Sums beyond 64 bits: 2 × (2^63 - 1) + 2 would be 0 there.
        assert!(!with([i64::MAX, i64::MAX, 2, 0, 0]));
        assert!(!with([i64::MIN + 1, i64::MIN + 1, 0, 0, 2]));
        assert!(!with([i64::MIN, i64::MIN, i64::MAX, i64::MAX, 2]));
        assert_eq!(with([i64::MIN; 5]), mode != 1);
    }
}

#[test]
fn values_at_the_greatest_bound() {
    for mode in [1, 2, 5] {
        let mut hill = Hill::empty(mode, 0, 0, 0, 100_000);
        for (middle, expected) in
            [(100_000 * GRAMS, true), (100_000 * GRAMS + 1, false), (-100_000 * GRAMS, true), (-100_000 * GRAMS - 1, false)]
        {
            hill.middle = middle;
            assert_eq!(accepted(&hill.bytes()), expected);
        }
    }
}

#[test]
fn values_in_mode_4() {
    for place in 0..5 {
        for (value, expected) in
            [(0, true), (1, true), (4_294_967_295, true), (4_294_967_296, false), (-1, false), (i64::MIN, false), (i64::MAX, false)]
        {
            let mut hill = Hill::empty(4, 3, 1, 3, 2);
            match place {
                0 | 1 => hill.left[place] = value,
                2 => hill.middle = value,
                _ => hill.right[place - 3].3 = value,
            }
            assert_eq!(accepted(&hill.bytes()), expected, "{place}: {value}");
        }
    }
    // Stamps say nothing of how many were opened: closes alone, with values.
    let mut hill = Hill::empty(4, 3, 1, 1, 0);
    hill.left = vec![4_294_967_295, 1];
    hill.middle = 5;
    assert!(accepted(&hill.bytes()));
}
