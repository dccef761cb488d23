//! L4, "Levels in one byte": at both ends of the levels merging does what document 01
//! says, and a level that takes more than 8 bits gets 5, whatever its low byte is.
//! Summaries are worked out by hand. `crate::calls` are the reference's here and the
//! library's in `compare`, which has this file too.

use crate::calls::{finish, merge, merge_row, plan, runs, work};
use reference::gen::raw::{blank, spoilt, words, Hill, MODES};

const AMPLE: usize = 8192;

/// A hill of these levels that holds nothing, with records of 0 grams.
fn hill(mode: u16, [start, peak, end]: [u16; 3], opened: u32) -> Vec<u8> {
    Hill::empty(mode, start, peak, end, opened).bytes()
}

/// The whole log of so many records of 0 grams: levels 0, 0, 0 and the figure 0.
fn whole(mode: u16, opened: u32) -> Vec<u8> {
    Hill { middle: 0, ..Hill::empty(mode, 0, 0, 0, opened) }.bytes()
}

/// Two merged, by the call on two and by the call on a row, with blanks anywhere.
fn merged(left: &[u8], right: &[u8]) -> Vec<u8> {
    let none = &blank(u16::from(left[4]))[..];
    let two = merge(left, right, AMPLE).unwrap();
    for row in [&[left, right][..], &[none, left, right], &[left, none, right], &[left, right, none]] {
        assert_eq!(merge_row(&row.concat(), AMPLE), Ok(two.clone()));
    }
    two
}

#[test]
fn levels_of_64_stay() {
    for mode in MODES {
        // Flat at 64, alone and beside others.
        let flat = hill(mode, [64, 64, 64], 1);
        assert_eq!(merged(&flat, &flat), hill(mode, [64, 64, 64], 2));
        assert_eq!(merged(&blank(mode), &flat), flat);
        assert_eq!(merged(&flat, &blank(mode)), flat);
        assert_eq!(merged(&hill(mode, [64, 63, 64], 1), &flat), hill(mode, [64, 63, 64], 2));
        assert_eq!(merged(&hill(mode, [0, 0, 64], 64), &flat), hill(mode, [0, 0, 64], 65));
        assert_eq!(merged(&flat, &hill(mode, [64, 0, 0], 0)), hill(mode, [64, 0, 0], 1));
        // Down all 64 levels and up again: 64 records of 0 grams are closed.
        assert_eq!(merged(&hill(mode, [0, 0, 64], 64), &hill(mode, [64, 0, 0], 0)), whole(mode, 64));
        // Spoilt ones: the left's start and the right's end.
        let bad = spoilt(mode, 7, 64, 64, 3);
        assert_eq!(merged(&bad, &bad), spoilt(mode, 7, 64, 64, 6));
        assert_eq!(merged(&flat, &spoilt(mode, 8, 64, 64, 3)), spoilt(mode, 8, 64, 64, 4));
        assert_eq!(merged(&spoilt(mode, 8, 64, 0, 3), &hill(mode, [0, 0, 64], 64)), spoilt(mode, 8, 64, 64, 67));
    }
}

#[test]
fn start_64_and_peak_0() {
    for mode in MODES {
        let (up, down) = (hill(mode, [64, 0, 0], 1), hill(mode, [0, 0, 64], 64));
        assert_eq!(merged(&up, &blank(mode)), up);
        assert_eq!(merged(&blank(mode), &up), up);
        // From 64 up to the ground and down to 64 again: the level between is 0.
        assert_eq!(merged(&up, &down), spoilt(mode, 8, 64, 64, 65));
        assert_eq!(merged(&up, &up), spoilt(mode, 7, 64, 0, 2));
        assert_eq!(merged(&down, &down), spoilt(mode, 7, 0, 64, 128));
        // Two stations: one comes up from 64 to level 1, the next to the ground.
        assert_eq!(merged(&hill(mode, [64, 1, 1], 1), &hill(mode, [1, 0, 0], 0)), up);
    }
}

#[test]
fn the_lower_of_two_peaks() {
    for left in 1..=64 {
        for right in 1..=64 {
            let mode = MODES[usize::from(left + right) % 4];
            let two = merge(&hill(mode, [64, left, 64], 64), &hill(mode, [64, right, 64], 64), AMPLE).unwrap();
            assert_eq!(two[6..12], words(&[64, left.min(right), 64]));
            assert_eq!(two.len(), 24 + 28 * usize::from(64 - left.min(right)));
        }
    }
}

#[test]
fn every_level_that_two_can_meet_at() {
    for mode in MODES {
        for end in 0..=64 {
            for start in 0..=64 {
                let expected = match (end == start, end) {
                    (false, _) => spoilt(mode, 7, 0, 0, 65),
                    (true, 0) => spoilt(mode, 8, 0, 0, 65),
                    _ => whole(mode, 65),
                };
                let two = merge(&hill(mode, [0, 0, end], 64), &hill(mode, [start, 0, 0], 1), AMPLE);
                assert_eq!(two, Ok(expected));
            }
        }
    }
}

/// Every call on summaries gets 5 for these bytes, wherever they stand.
fn assert_5(bytes: &[u8], mode: u16) {
    assert_eq!(finish(bytes), Err(5));
    for other in [blank(mode), spoilt(mode, 7, 64, 64, 1), hill(mode, [64, 64, 64], 1), hill(mode, [0, 0, 0], 1)] {
        assert_eq!(merge(bytes, &other, AMPLE), Err(5));
        assert_eq!(merge(&other, bytes, AMPLE), Err(5));
        for row in [[bytes, &other, &other], [&other, bytes, &other], [&other, &other, bytes]].map(|row| row.concat()) {
            assert_eq!(merge_row(&row, AMPLE), Err(5));
            assert_eq!(plan(&row, AMPLE), Err(5));
            assert_eq!(runs(&row, AMPLE), Err(5));
            assert_eq!(work(&row), Err(5));
        }
    }
}

/// Low bytes 0, 1 and 64 under the lowest high byte and the highest; 65,535 has no level even in its low byte.
const PAST_A_BYTE: [u16; 7] = [256, 257, 320, 65_280, 65_281, 65_344, 65_535];

#[test]
fn a_spoilt_level_past_a_byte_gets_5() {
    for mode in MODES {
        for level in PAST_A_BYTE {
            assert_5(&spoilt(mode, 7, level, 0, 1), mode);
            assert_5(&spoilt(mode, 8, 0, level, 1), mode);
            assert_5(&spoilt(mode, 9, level, level, 100_001), mode);
        }
    }
}

#[test]
fn a_hill_with_levels_past_a_byte_gets_5() {
    for mode in MODES {
        for level in PAST_A_BYTE {
            // Flat, so that the length is as the levels say; or one level more on either side.
            for levels in [[level, level, level], [level, level - 1, level - 1], [level - 1, level - 1, level]] {
                assert_5(&hill(mode, levels, 9), mode);
            }
        }
        // One level or two, with all the values that they ask for: 256 would pass for 0, and 320 for 64.
        for levels in
            [[256, 0, 0], [0, 0, 256], [320, 64, 64], [64, 64, 320], [320, 1, 1], [320, 0, 0], [0, 0, 320], [320, 64, 320]]
        {
            assert_5(&hill(mode, levels, 1000), mode);
        }
        // A peak of 320 would pass for 64 where no value says otherwise.
        assert_5(&Hill { peak: 320, ..Hill::empty(mode, 64, 64, 64, 1) }.bytes(), mode);
    }
}

#[test]
fn every_high_byte_of_every_level_gets_5() {
    // A quarter of the high bytes in each mode.
    for (place, mode) in MODES.into_iter().enumerate() {
        let taken = [
            (spoilt(mode, 7, 64, 64, 1), &[9, 11][..]),
            (spoilt(mode, 8, 0, 0, 1), &[9, 11]),
            (hill(mode, [64, 64, 64], 1), &[7, 9, 11]),
            (hill(mode, [0, 0, 0], 1), &[7, 9, 11]),
            (hill(mode, [64, 0, 0], 1), &[7, 9, 11]),
            (hill(mode, [0, 0, 64], 64), &[7, 9, 11]),
        ];
        for (bytes, high_bytes) in taken {
            assert_eq!(merge(&bytes, &blank(mode), AMPLE), Ok(bytes.clone()));
            for &at in high_bytes {
                for high in (1 + place as u8..=255).step_by(4) {
                    let mut forged = bytes.clone();
                    forged[at] = high;
                    assert_eq!(merge(&forged, &blank(mode), AMPLE), Err(5));
                    assert_eq!(merge(&blank(mode), &forged, AMPLE), Err(5));
                    assert_eq!(finish(&forged), Err(5));
                }
            }
        }
    }
}
