//! L7, "The records behind the heaviest line", sentence by sentence; logs and numbers are
//! written out by hand. `crate::calls` are the reference's here and the library's in
//! `compare`, which has this file too.

use crate::calls::{day, heaviest_line};
use reference::gen::logs::BATCHES;
use reference::gen::raw::{batched, close, faulty_logs, log_d, longest_log, open, short};

/// No line is longer: 4 bytes for each of the depths 0 to 63.
const AMPLE: usize = 256;
const LEAST: i32 = -1_000_000_000;
const GREATEST: i32 = 1_000_000_000;

/// A short record of a depth and a value, around those that it holds.
pub fn around(depth: u16, value: i32, held: &[Vec<u8>]) -> Vec<u8> {
    [short(depth, value), held.concat(), close(depth)].concat()
}

/// One that holds nothing.
pub fn leaf(depth: u16, value: i32) -> Vec<u8> {
    around(depth, value, &[])
}

/// A log whose first record has 0 grams and holds records of these values.
pub fn flat(values: &[i32]) -> Vec<u8> {
    around(0, 0, &values.iter().map(|&value| leaf(1, value)).collect::<Vec<_>>())
}

/// Records of one value and of the depths from one to another, each held by the one before;
/// the last holds what is given.
pub fn chain_around(from: u16, to: u16, value: i32, held: Vec<u8>) -> Vec<u8> {
    (from..=to).rev().fold(held, |held, depth| around(depth, value, &[held]))
}

/// The same, and the last holds nothing.
pub fn chain(from: u16, to: u16, value: i32) -> Vec<u8> {
    chain_around(from, to, value, Vec::new())
}

/// "32-bit numbers", the low byte first.
fn bytes(numbers: &[u32]) -> Vec<u8> {
    numbers.iter().flat_map(|number| number.to_le_bytes()).collect()
}

/// The log's mode 2 figure, and the numbers of the records that make it.
fn assert_line(log: &[u8], figure: i64, numbers: &[u32]) {
    assert_eq!(day(log).map(|figures| figures[1]), Ok(figure));
    let due = bytes(numbers);
    for capacity in [due.len(), due.len() + 1, AMPLE] {
        assert_eq!(heaviest_line(log, capacity), Ok(due.clone()), "{capacity} bytes");
    }
    assert_eq!(heaviest_line(log, due.len() - 1), Err(12));
}

#[test]
fn the_line_of_log_d() {
    // Record 0 of 10 grams holds 1 and 2, of 5 and -3.
    let log = log_d().concat();
    assert_eq!(heaviest_line(&log, 8), Ok(vec![0, 0, 0, 0, 1, 0, 0, 0]));
    assert_line(&log, 15, &[0, 1]);
}

#[test]
fn a_record_that_holds_nothing_is_its_own_line() {
    for value in [LEAST, -1, 0, 1, GREATEST] {
        assert_line(&leaf(0, value), value.into(), &[0]);
    }
}

#[test]
fn the_heaviest_at_every_place() {
    for place in 0..9 {
        let mut values = [1; 9];
        values[place] = 2;
        assert_line(&flat(&values), 2, &[0, place as u32 + 1]);
        // And one that is lighter than all others.
        values[place] = 0;
        assert_line(&flat(&values), 1, &[0, if place == 0 { 2 } else { 1 }]);
    }
}

#[test]
fn the_earliest_of_equals_is_taken() {
    for value in [LEAST, -1, 0, 1, GREATEST] {
        assert_line(&flat(&[value; 2]), value.into(), &[0, 1]);
        assert_line(&flat(&[value; 5]), value.into(), &[0, 1]);
    }
    // The earliest of those that reach the figure, whatever stands before, between and after.
    assert_line(&flat(&[1, 2, 2]), 2, &[0, 2]);
    assert_line(&flat(&[2, 1, 2]), 2, &[0, 1]);
    assert_line(&flat(&[1, 2, 1, 2]), 2, &[0, 2]);
    assert_line(&flat(&[-2, -1, -3, -1]), -1, &[0, 2]);
    assert_line(&flat(&[1, 1, 2, 3, 3, 2, 3, 1]), 3, &[0, 4]);
}

/// A record that holds others of its kind, one of each of these values, down to a depth.
fn alike(depth: u16, value: i32, deepest: u16, values: &[i32]) -> Vec<u8> {
    let held = values.iter().filter(|_| depth < deepest).map(|&value| alike(depth + 1, value, deepest, values));
    around(depth, value, &held.collect::<Vec<_>>())
}

#[test]
fn equals_at_every_level() {
    // Two held, 15 records in all: the first of the two each time.
    assert_line(&alike(0, 1, 3, &[1, 1]), 4, &[0, 1, 2, 3]);
    // The first of the two is lighter: 7, 3 and 1 records are passed over.
    assert_line(&alike(0, 1, 3, &[0, 1]), 4, &[0, 8, 12, 14]);
    // Of three the second and the third are equal: 4 records are passed over, and 1.
    assert_line(&alike(0, 1, 2, &[0, 1, 1]), 3, &[0, 5, 7]);
    assert_line(&alike(0, 1, 2, &[1, 0, 1]), 3, &[0, 1, 2]);
    assert_line(&alike(0, -1, 2, &[-2, -1, -1]), -3, &[0, 5, 7]);
}

#[test]
fn equal_figures_of_different_shapes() {
    // One record, two and three; each comes to 3.
    let one = leaf(1, 3);
    let two = around(1, 1, &[leaf(2, 2)]);
    let three = around(1, 4, &[around(2, -3, &[leaf(3, 2)])]);
    for [a, b] in [[&two, &three], [&three, &two]] {
        assert_line(&around(0, 0, &[one.clone(), a.clone(), b.clone()]), 3, &[0, 1]);
        assert_line(&around(0, 0, &[leaf(1, 2), one.clone(), a.clone(), b.clone()]), 3, &[0, 2]);
    }
    for [a, b] in [[&one, &three], [&three, &one]] {
        assert_line(&around(0, 0, &[two.clone(), a.clone(), b.clone()]), 3, &[0, 1, 2]);
        assert_line(&around(0, 0, &[leaf(1, 2), two.clone(), a.clone(), b.clone()]), 3, &[0, 2, 3]);
    }
    for [a, b] in [[&one, &two], [&two, &one]] {
        assert_line(&around(0, 0, &[three.clone(), a.clone(), b.clone()]), 3, &[0, 1, 2, 3]);
        assert_line(&around(0, 0, &[leaf(1, 2), three.clone(), a.clone(), b.clone()]), 3, &[0, 2, 3, 4]);
    }
}

#[test]
fn the_greatest_of_negative_figures() {
    assert_line(&flat(&[-7, -3, -9]), -3, &[0, 2]);
    assert_line(&flat(&[LEAST, LEAST, LEAST + 1, LEAST]), -999_999_999, &[0, 3]);
    // -1 - 1 - 1 is more than -4, and -1 - 4 is less.
    assert_line(&around(0, -1, &[leaf(1, -4), chain(1, 3, -1)]), -4, &[0, 2, 3, 4]);
    assert_line(&around(0, -1, &[around(1, -1, &[leaf(2, -4)]), leaf(1, -4)]), -5, &[0, 3]);
}

#[test]
fn the_line_goes_on_where_what_is_held_takes_away() {
    // "10 over -3 is 7, not 10"
    assert_line(&around(0, 10, &[leaf(1, -3)]), 7, &[0, 1]);
    assert_line(&around(0, 5, &[around(1, 4, &[leaf(2, -20), leaf(2, -9)])]), 0, &[0, 1, 3]);
    assert_line(&around(0, GREATEST, &[around(1, GREATEST, &[leaf(2, LEAST)])]), 1_000_000_000, &[0, 1, 2]);
}

#[test]
fn the_line_goes_on_where_what_is_held_comes_to_0() {
    // The figure is the value, and yet the record holds others.
    assert_line(&around(0, 4, &[leaf(1, 0)]), 4, &[0, 1]);
    assert_line(&around(0, 4, &[chain(1, 3, 0)]), 4, &[0, 1, 2, 3]);
    assert_line(&around(0, 4, &[leaf(1, -1), around(1, 3, &[leaf(2, -3)])]), 4, &[0, 2, 3]);
    assert_line(&around(0, 4, &[around(1, 5, &[leaf(2, 0), leaf(2, -1)]), leaf(1, 5)]), 9, &[0, 1, 2]);
}

#[test]
fn the_figure_counts_and_not_the_value() {
    // 9 - 8 is less than 2; 1 + 10 is more than 9.
    assert_line(&around(0, 1, &[around(1, 9, &[leaf(2, -8)]), leaf(1, 2)]), 3, &[0, 3]);
    assert_line(&around(0, 1, &[leaf(1, 9), around(1, 1, &[leaf(2, 10)])]), 12, &[0, 2, 3]);
    // The second step: 6 and 5 come to 5 and 7.
    let [six, five] = [around(2, 6, &[leaf(3, -1)]), around(2, 5, &[leaf(3, 2)])];
    assert_line(&around(0, 0, &[leaf(1, 0), around(1, 0, &[six, five])]), 7, &[0, 2, 5, 6]);
}

#[test]
fn one_line_counts_and_not_all_that_is_held() {
    // 3 + 3 + 3 is no line, and neither is the longest one the heaviest.
    let three = around(1, 0, &[leaf(2, 3), leaf(2, 3), leaf(2, 3)]);
    assert_line(&around(0, 0, &[three, leaf(1, 4)]), 4, &[0, 5]);
    assert_line(&around(0, 0, &[chain(1, 63, 1), leaf(1, 64)]), 64, &[0, 64]);
    assert_line(&around(0, 0, &[chain(1, 63, 1), leaf(1, 62)]), 63, &(0..=63).collect::<Vec<_>>());
}

#[test]
fn floors_and_ceilings_do_not_bind() {
    // 50 grams lowered to 1, or 2 raised to 90, would change places with 3.
    let log = [open(0, 0, 7, 8), open(1, 2, 90, 99), close(1), open(1, 3, 3, 3), close(1), open(1, 50, 0, 1), close(1), close(0)];
    assert_line(&log.concat(), 50, &[0, 3]);
    // The same in records that hold one of 0 grams.
    let held = |value, floor, ceiling| [open(1, value, floor, ceiling), leaf(2, 0), close(1)].concat();
    let log = [open(0, 0, 7, 8), held(2, 90, 99), held(3, 3, 3), held(50, 0, 1), close(0)];
    assert_line(&log.concat(), 50, &[0, 5, 6]);
}

#[test]
fn numbers_count_opened_records_in_log_order() {
    // Two of 4 records each are passed over; records that follow are not counted.
    let four = around(1, -9, &[leaf(2, 0), around(2, 0, &[leaf(3, 0)])]);
    assert_line(&around(0, 0, &[four.clone(), four.clone(), leaf(1, 1)]), 1, &[0, 9]);
    assert_line(&around(0, 0, &[four.clone(), leaf(1, 1), four.clone()]), 1, &[0, 5]);
    // Within the third of them, which has 9 grams more: its own second one, and what that holds.
    let heavy = around(1, 0, &[leaf(2, -1), around(2, 0, &[leaf(3, 0)])]);
    assert_line(&around(0, 0, &[four.clone(), four, heavy]), 0, &[0, 9, 11, 12]);
}

#[test]
fn depth_63_makes_64_numbers() {
    let all: Vec<u32> = (0..=63).collect();
    assert_eq!(bytes(&all).len(), AMPLE);
    for value in [LEAST, -1, 0, 1, GREATEST] {
        assert_line(&chain(0, 63, value), 64 * i64::from(value), &all);
    }
    // At each depth a record of 0 grams before the one of the line, or after it.
    let beside = |first: bool| {
        (0..=62).rev().fold(leaf(63, 1), |held, depth| {
            let other = leaf(depth + 1, 0);
            around(depth, 1, &if first { [other, held] } else { [held, other] })
        })
    };
    assert_line(&beside(true), 64, &(0..=63).map(|depth| 2 * depth).collect::<Vec<_>>());
    assert_line(&beside(false), 64, &all);
}

#[test]
fn a_line_of_every_length() {
    for deepest in 0..=63 {
        let log = chain(0, deepest, 7);
        let due = bytes(&(0..=deepest.into()).collect::<Vec<_>>());
        let length = 4 * (usize::from(deepest) + 1);
        assert_eq!(due.len(), length);
        for capacity in [0, 1, 3, length - 4, length - 3, length - 1] {
            assert_eq!(heaviest_line(&log, capacity), Err(12), "{capacity} bytes for {length}");
        }
        for capacity in [length, length + 1, length + 3, length + 4, AMPLE, AMPLE + 1, 65_536] {
            assert_eq!(heaviest_line(&log, capacity), Ok(due.clone()), "{capacity} bytes for {length}");
        }
    }
}

/// 4,096 short records and their closes, 65,536 bytes: those with these numbers have 2 grams,
/// all others 1, and the first holds them all.
fn longest_flat(heavier: &[u32]) -> Vec<u8> {
    let grams = |number| 1 + i32::from(heavier.contains(&number));
    let log = around(0, grams(0), &(1..4096).map(|number| leaf(1, grams(number))).collect::<Vec<_>>());
    assert_eq!(log.len(), 65_536);
    log
}

#[test]
fn any_of_4096_records_may_be_the_heaviest() {
    assert_line(&longest_log(), 2, &[0, 1]);
    for number in [1, 2, 3, 255, 256, 257, 1024, 2047, 2048, 4094, 4095] {
        assert_line(&longest_flat(&[number]), 3, &[0, number]);
        // With the last, and with the first, of the same weight.
        assert_line(&longest_flat(&[number, 4095]), 3, &[0, number]);
        assert_line(&longest_flat(&[1, number]), 3, &[0, 1]);
    }
    // 4,095 is 15 × 256 + 255.
    assert_eq!(heaviest_line(&longest_flat(&[4095]), 8), Ok(vec![0, 0, 0, 0, 0xff, 0x0f, 0, 0]));
    assert_eq!(heaviest_line(&longest_flat(&[256]), 8), Ok(vec![0, 0, 0, 0, 0, 1, 0, 0]));
}

#[test]
fn longest_logs_that_are_deep() {
    // Under the first record 65 chains of 63: 1 + 65 × 63 = 4,096 records. One chain's last
    // record has a gram more than the others.
    for heavy in [0, 1, 31, 63, 64] {
        let one = |place| chain_around(1, 62, 1, leaf(63, 1 + i32::from(place == heavy)));
        let log = around(0, 1, &(0..65).map(one).collect::<Vec<_>>());
        assert_eq!(log.len(), 65_536);
        let first = 1 + 63 * heavy;
        let numbers: Vec<u32> = [0].into_iter().chain(first..first + 63).collect();
        assert_line(&log, 65, &numbers);
    }
    // 63 records down, of which the last holds 4,033.
    for heavy in [0, 1, 2000, 4032] {
        let held = (0..4033).flat_map(|place| leaf(63, i32::from(place == heavy))).collect();
        let log = chain_around(0, 62, 1, held);
        assert_eq!(log.len(), 65_536);
        let numbers: Vec<u32> = (0..63).chain([63 + heavy]).collect();
        assert_line(&log, 64, &numbers);
    }
}

#[test]
fn figures_take_more_than_32_bits() {
    // Five times 10^9 would be 705,032,704, and five times -10^9 would be -705,032,704.
    assert_line(&around(0, 0, &[leaf(1, GREATEST), chain(1, 5, GREATEST)]), 5_000_000_000, &[0, 2, 3, 4, 5, 6]);
    assert_line(&around(0, 0, &[chain(1, 5, LEAST), leaf(1, LEAST)]), -1_000_000_000, &[0, 6]);
    // One gram decides between two chains of 63 records.
    let second: Vec<u32> = [0].into_iter().chain(64..127).collect();
    let lighter = chain_around(1, 62, GREATEST, leaf(63, GREATEST - 1));
    assert_line(&around(0, 0, &[lighter, chain(1, 63, GREATEST)]), 63_000_000_000, &second);
    let heavier = chain_around(1, 62, LEAST, leaf(63, LEAST + 1));
    assert_line(&around(0, 0, &[chain(1, 63, LEAST), heavier]), -62_999_999_999, &second);
}

#[test]
fn records_of_all_lengths() {
    // 1 + 5; then with 2 grams more inside the second, 1 + 4 + 2.
    for (inside, figure, numbers) in [(0, 6, &[0, 1][..]), (2, 7, &[0, 2, 3][..])] {
        let second = [batched(1, 4, 4, 100, u32::MAX), leaf(2, inside), close(1)].concat();
        let log = [batched(0, 1, 2, 3, 9), open(1, 5, 0, 0), close(1), second, open(1, -9, 6, 7), close(1), close(0)];
        assert_line(&log.concat(), figure, numbers);
    }
}

#[test]
fn batches_are_no_weight_and_no_record() {
    // Some of them begin like a record.
    for batch in BATCHES {
        let held = [batched(1, 2, 0, 9, batch), close(1), open(1, 3, 0, 9), close(1), batched(1, 3, 0, 9, batch), close(1)];
        let log = [batched(0, 1, 0, 9, batch), held.concat(), close(0)];
        assert_line(&log.concat(), 4, &[0, 2]);
    }
}

#[test]
fn exact_fits_and_a_byte_less_gets_12() {
    let log = log_d().concat();
    for capacity in 0..8 {
        assert_eq!(heaviest_line(&log, capacity), Err(12));
    }
    for capacity in [8, 9, 11, 12, 100, 255, 256, 257] {
        assert_eq!(heaviest_line(&log, capacity), Ok(bytes(&[0, 1])));
    }
}

#[test]
fn a_log_with_a_fault_gets_its_number() {
    for (log, number) in faulty_logs() {
        // The buffer is looked at last.
        for capacity in [0, 3, 4, 8, AMPLE - 1, AMPLE, AMPLE + 1] {
            assert_eq!(heaviest_line(&log, capacity), Err(number), "{} bytes", log.len());
        }
        assert_eq!(day(&log), Err(number));
    }
}

#[test]
fn a_fault_behind_a_line_counts() {
    // The records of log D make a line; what follows, or is missing, spoils the log.
    let d = log_d();
    assert_line(&d.concat(), 15, &[0, 1]);
    let after = |record: Vec<u8>| [d.concat(), record].concat();
    let spoilt = [
        (after(vec![6]), 3),
        (after(close(64)), 3),
        (after(close(1)), 7),
        (after(short(1, 9)), 7),
        (after(leaf(0, 9)), 8),
        (after(short(0, 9)), 8),
        (d[..5].concat(), 11),
        (d[1..].concat(), 11),
        (d[1..3].concat(), 11),
    ];
    for (log, number) in spoilt {
        for capacity in [0, 7, 8, AMPLE] {
            assert_eq!(heaviest_line(&log, capacity), Err(number), "{} bytes", log.len());
        }
    }
}
