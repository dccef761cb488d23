//! Question 5 by way of finish: each clause at its edge and past it, in each mode and in mode 3, which is out of use, the proved library
//! against the reference.

use compare::agree::finish;
use reference::gen::raw::Hill;

const LEAST: i64 = i64::MIN;
const GRAMS: i64 = 1_000_000_000;
const TRIED: [u16; 5] = [1, 2, 3, 4, 5];

/// Finish must answer alike. Gives whether the bytes are taken, which none of mode 3 are.
fn agree(bytes: &[u8]) -> bool {
    let taken = finish(bytes) != [-5];
    assert!(!taken || bytes[4] != 3);
    taken
}

#[test]
fn levels() {
    let mut taken = 0;
    for mode in TRIED {
        for start in [0, 1, 2, 63, 64, 65, 300] {
            for peak in [0, 1, 2, 63, 64, 65, 300] {
                for end in [0, 1, 2, 63, 64, 65, 300] {
                    taken += usize::from(agree(&Hill::empty(mode, start, peak, end, 64).bytes()));
                }
            }
        }
    }
    assert!(taken > 100);
}

#[test]
fn opened() {
    for mode in TRIED {
        for opened in [0, 1, 2, 99_999, 100_000, 100_001, u32::MAX] {
            for (start, peak, end) in [(0, 0, 0), (5, 5, 5), (1, 0, 0), (0, 0, 1), (3, 2, 4)] {
                agree(&Hill::empty(mode, start, peak, end, opened).bytes());
            }
        }
    }
}

#[test]
fn the_middle_at_peak_0() {
    for mode in TRIED {
        for middle in [LEAST, LEAST + 1, -1, 0, 1, i64::MAX] {
            for (start, end) in [(0, 0), (1, 0), (0, 1), (0, 3), (2, 0)] {
                let hill = Hill { middle, ..Hill::empty(mode, start, 0, end, 9) };
                agree(&hill.bytes());
            }
        }
    }
}

#[test]
fn records_in_range() {
    let ends = [i32::MIN, -1_000_000_001, -1_000_000_000, -1, 0, 1, 1_000_000_000, 1_000_000_001, i32::MAX];
    for mode in TRIED {
        for value in ends {
            for floor in ends {
                for ceiling in ends {
                    let mut hill = Hill::empty(mode, 3, 2, 4, 9);
                    let held = hill.right[1].3;
                    hill.right[1] = (value, floor, ceiling, held);
                    agree(&hill.bytes());
                }
            }
        }
    }
}

#[test]
fn values_at_the_bound() {
    // Levels 5, 3, 4 with 5 opened and 1 unclosed: modes 1, 2 and 5 have room for 4 × 10^9.
    let room = 4 * GRAMS;
    let numbers = [LEAST, LEAST + 1, -room - 1, -room, -1, 0, 1, room, room + 1, (1 << 32) - 1, 1 << 32, i64::MAX];
    for mode in TRIED {
        for place in 0..4 {
            for number in numbers {
                let mut hill = Hill::empty(mode, 5, 3, 4, 5);
                match place {
                    0 | 1 => hill.left[place] = number,
                    2 => hill.middle = number,
                    _ => hill.right[0].3 = number,
                }
                agree(&hill.bytes());
                // Shared between two places, at the bound and one past it.
                for other in [-1, 1] {
                    hill.left[(place + 1) % 2] = other;
                    agree(&hill.bytes());
                }
            }
        }
    }
}

#[test]
fn many_values_of_the_greatest_size() {
    // 64 left values and 64 records at the ends of the type: no sum may wrap.
    for mode in TRIED {
        for number in [LEAST, LEAST + 1, i64::MAX, 1 << 62, -(1 << 62)] {
            let mut hill = Hill::empty(mode, 64, 0, 0, 100_000);
            hill.left = vec![number; 64];
            agree(&hill.bytes());
            let mut hill = Hill::empty(mode, 63, 1, 63, 100_000);
            hill.left = vec![number; 62];
            for record in &mut hill.right {
                record.3 = number;
            }
            agree(&hill.bytes());
        }
    }
}

#[test]
fn spoilt_ones() {
    for mode in [0, 1, 2, 3, 4, 5, 6, 257, 259, 261] {
        for fault in [0, 6, 7, 8, 9, 10, 263] {
            for level in [0, 1, 64, 65, 320] {
                for opened in [0u32, 1, 100_000, 100_001, 100_002, u32::MAX] {
                    for (start, end) in [(level, 0), (0, level)] {
                        let mut bytes = Vec::new();
                        for word in [16u16, 17, mode, fault, start, end] {
                            bytes.extend(word.to_le_bytes());
                        }
                        bytes.extend(opened.to_le_bytes());
                        agree(&bytes);
                    }
                }
            }
        }
    }
}

#[test]
fn lengths_and_kinds() {
    for mode in TRIED {
        let hill = Hill::empty(mode, 5, 3, 4, 5).bytes();
        for length in 0..=hill.len() {
            agree(&hill[..length]);
        }
        agree(&[hill.clone(), vec![0]].concat());
        for kind in 0..40 {
            let mut other = hill.clone();
            other[2] = kind;
            agree(&other);
        }
        for length in 0..=255 {
            let mut other = hill.clone();
            other[0] = length;
            agree(&other);
        }
        for size in 4..30 {
            for kind in [16, 17, 18] {
                let mut bytes = vec![size as u8, 0, kind, 0, mode as u8, 0];
                bytes.resize(size, 0);
                agree(&bytes);
            }
        }
    }
}
