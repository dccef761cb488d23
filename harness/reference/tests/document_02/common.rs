//! L10, "The tank two drops have in common", sentence by sentence; logs and numbers are written out
//! by hand. `crate::calls` are the reference's here and the library's in `compare`, which has this
//! file too.

use crate::calls::{common, day};
use crate::heaviest_line::{around, chain, chain_around, flat, leaf};
use crate::sheet::spoilt_at_its_end;
use reference::gen::logs::BATCHES;
use reference::gen::raw::{batched, close, faulty_logs, log_d, longest_log, open, short};

/// What two records have in common. "It must be the same either way round".
fn assert_common(log: &[u8], a: u32, b: u32, due: u32) {
    assert_eq!([common(log, a, b), common(log, b, a)], [Ok(due); 2], "records {a} and {b}");
}

/// Two numbers are refused, either way round.
fn assert_refused(log: &[u8], a: u32, b: u32, number: u8) {
    assert_eq!([common(log, a, b), common(log, b, a)], [Err(number); 2], "{} bytes, records {a} and {b}", log.len());
}

/// Site 0 has the raceways 1 and 8. In 1 are tank 2 with the drops 3 and 4, tank 5 with drop 6, and
/// drop 7 beside the tanks; in 8 is tank 9 with the drops 10, 11 and 12.
fn farm() -> Vec<u8> {
    let tank = |drops: usize| around(2, 0, &vec![leaf(3, 5); drops]);
    let raceways = [around(1, 0, &[tank(2), tank(1), leaf(2, 5)]), around(1, 0, &[tank(3)])];
    around(0, 0, &raceways)
}

#[test]
fn every_pair_of_log_d() {
    // Record 0 holds 1 and 2.
    let log = log_d().concat();
    for (a, line) in (0..).zip([[0, 0, 0], [0, 1, 0], [0, 0, 2]]) {
        for (b, due) in (0..).zip(line) {
            assert_eq!(common(&log, a, b), Ok(due), "records {a} and {b}");
        }
    }
}

#[test]
fn every_pair_of_a_farm() {
    // In line a, column b: what records a and b have in common.
    let due = [
        [0, 0, 0, 0, 0, 0, 0, 0, 0, 0, 0, 0, 0],
        [0, 1, 1, 1, 1, 1, 1, 1, 0, 0, 0, 0, 0],
        [0, 1, 2, 2, 2, 1, 1, 1, 0, 0, 0, 0, 0],
        [0, 1, 2, 3, 2, 1, 1, 1, 0, 0, 0, 0, 0],
        [0, 1, 2, 2, 4, 1, 1, 1, 0, 0, 0, 0, 0],
        [0, 1, 1, 1, 1, 5, 5, 1, 0, 0, 0, 0, 0],
        [0, 1, 1, 1, 1, 5, 6, 1, 0, 0, 0, 0, 0],
        [0, 1, 1, 1, 1, 1, 1, 7, 0, 0, 0, 0, 0],
        [0, 0, 0, 0, 0, 0, 0, 0, 8, 8, 8, 8, 8],
        [0, 0, 0, 0, 0, 0, 0, 0, 8, 9, 9, 9, 9],
        [0, 0, 0, 0, 0, 0, 0, 0, 8, 9, 10, 9, 9],
        [0, 0, 0, 0, 0, 0, 0, 0, 8, 9, 9, 11, 9],
        [0, 0, 0, 0, 0, 0, 0, 0, 8, 9, 9, 9, 12],
    ];
    let log = farm();
    for (a, line) in (0..).zip(due) {
        for (b, due) in (0..).zip(line) {
            assert_eq!(common(&log, a, b), Ok(due), "records {a} and {b}");
        }
    }
}

#[test]
fn the_smallest_record_that_holds_two_drops() {
    let log = farm();
    // Of one tank; of two tanks of a raceway; one of a tank and one beside it; of two raceways.
    assert_common(&log, 3, 4, 2);
    assert_common(&log, 10, 12, 9);
    assert_common(&log, 4, 6, 1);
    assert_common(&log, 6, 7, 1);
    assert_common(&log, 4, 10, 0);
    assert_common(&log, 7, 12, 0);
}

#[test]
fn one_that_holds_the_other_is_what_they_have_in_common() {
    let log = farm();
    // Directly, and by one and two records between.
    for (a, b) in [(2, 3), (2, 4), (5, 6), (9, 12), (1, 7), (0, 8), (1, 3), (1, 6), (8, 11), (0, 5), (0, 3), (0, 12)] {
        assert_common(&log, a, b, a);
    }
}

#[test]
fn a_number_given_twice_names_itself() {
    for (log, opened) in [(leaf(0, 1), 1), (log_d().concat(), 3), (farm(), 13), (chain(0, 63, 1), 64), (flat(&[1; 99]), 100)] {
        for number in 0..opened {
            assert_common(&log, number, number, number);
        }
    }
    for number in [0, 1, 2, 255, 256, 257, 2047, 2048, 4094, 4095] {
        assert_common(&longest_log(), number, number, number);
    }
}

#[test]
fn the_record_that_the_log_begins_with_holds_all() {
    for (log, opened) in [(farm(), 13), (chain(0, 63, 1), 64), (flat(&[1; 99]), 100)] {
        for number in 0..opened {
            assert_common(&log, 0, number, 0);
        }
    }
}

#[test]
fn records_of_one_depth_and_of_one_shape() {
    // Four tanks that are alike.
    let tank = around(1, 0, &[leaf(2, 1), around(2, 1, &[leaf(3, 1), leaf(3, 1)])]);
    let log = around(0, 0, &vec![tank; 4]);
    // Tank k has the numbers from 5k + 1 on: itself, a drop, a meal and its two drops.
    for first in [1, 6, 11, 16] {
        assert_common(&log, first + 1, first + 2, first);
        assert_common(&log, first + 1, first + 4, first);
        assert_common(&log, first + 3, first + 4, first + 2);
        for other in [1, 6, 11, 16].into_iter().filter(|&other| other != first) {
            for (a, b) in [(0, 0), (1, 1), (3, 3), (4, 3), (2, 4), (0, 4)] {
                assert_common(&log, first + a, other + b, 0);
            }
        }
    }
}

#[test]
fn what_is_closed_between_the_two_is_not_in_common() {
    // Tank 1 holds drop 2, a line of 61 records, 3 to 63, and drop 64.
    let log = around(0, 0, &[around(1, 0, &[leaf(2, 1), chain(2, 62, 1), leaf(2, 1)])]);
    assert_common(&log, 2, 64, 1);
    assert_common(&log, 2, 63, 1);
    assert_common(&log, 63, 64, 1);
    assert_common(&log, 62, 63, 62);
    // Tank 1 with drop 2, tank 3 with none, tank 4 with drop 5.
    let log = around(0, 0, &[around(1, 0, &[leaf(2, 1)]), leaf(1, 0), around(1, 0, &[leaf(2, 1)])]);
    for (a, b) in [(2, 5), (2, 3), (3, 5), (1, 4), (1, 5), (2, 4)] {
        assert_common(&log, a, b, 0);
    }
}

#[test]
fn in_a_line_of_64_the_upper_one() {
    let log = chain(0, 63, 1);
    for a in 0..64 {
        for b in a..64 {
            assert_common(&log, a, b, a);
        }
    }
}

#[test]
fn two_branches_that_part_at_every_depth() {
    // The records 0 to d, of which the last holds two lines down to depth 63.
    for depth in 0..=62 {
        let branch = chain(depth + 1, 63, 1);
        let log = chain_around(0, depth, 1, [branch.clone(), branch].concat());
        let depth = u32::from(depth);
        let (last, second, end) = (63, 64, 126 - depth);
        assert_common(&log, last, end, depth);
        assert_common(&log, depth + 1, second, depth);
        assert_common(&log, last, second, depth);
        assert_common(&log, depth, end, depth);
        assert_common(&log, depth + 1, last, depth + 1);
        assert_common(&log, second, end, second);
        assert_refused(&log, 0, end + 1, 19);
    }
}

#[test]
fn a_drop_beside_the_line_at_every_depth() {
    // 64 records down. At each depth the next has a drop before it, or behind it.
    let down = |first: bool| {
        (0..=62).rev().fold(leaf(63, 1), |held, depth| {
            let drop = leaf(depth + 1, 0);
            around(depth, 1, &if first { [drop, held] } else { [held, drop] })
        })
    };
    let (before, behind) = (down(true), down(false));
    for a in 0..=61 {
        for b in [a + 1, 62] {
            // Those of the line are 0, 2, 4, .., their drops 1, 3, 5, ..
            assert_common(&before, 2 * a + 1, 2 * b + 1, 2 * a);
            assert_common(&before, 2 * a + 1, 2 * b, 2 * a);
            assert_common(&before, 2 * a, 2 * b + 1, 2 * a);
            // Those of the line are 0 to 63, then come the drops, the deepest first.
            assert_common(&behind, 126 - a, 126 - b, a);
            assert_common(&behind, 126 - a, b, a);
            assert_common(&behind, a, 126 - b, a);
        }
    }
}

#[test]
fn the_longest_logs() {
    // 4,096 records of 65,536 bytes: 4,095 in the first.
    let log = longest_log();
    for (a, b) in [(0, 4095), (1, 4095), (4094, 4095), (1, 2), (255, 256), (256, 512), (2047, 2048)] {
        assert_common(&log, a, b, 0);
    }
    // 65 lines of 63 in the first: line k has the numbers from 63k + 1 on.
    let log = around(0, 1, &vec![chain(1, 63, 1); 65]);
    assert_eq!(log.len(), 65_536);
    let firsts = [0, 1, 31, 63, 64].map(|k| 63 * k + 1);
    for first in firsts {
        assert_common(&log, first, first + 62, first);
        assert_common(&log, first + 61, first + 62, first + 61);
        for other in firsts.into_iter().filter(|&other| other != first) {
            assert_common(&log, first, other + 30, 0);
            assert_common(&log, first + 62, other + 62, 0);
        }
    }
    // 63 records down, of which the last, 62, holds 4,033.
    let log = chain_around(0, 62, 1, leaf(63, 1).repeat(4033));
    assert_eq!(log.len(), 65_536);
    for (a, b) in [(63, 64), (63, 4095), (2048, 2049), (4094, 4095), (62, 4095)] {
        assert_common(&log, a, b, 62);
    }
    assert_common(&log, 61, 4095, 61);
}

#[test]
fn values_floors_ceilings_and_lengths_do_not_count() {
    // Record 0 holds 1, which holds 2 and 3, and 4. All opens alike, and each of another kind.
    let opens: [fn(u16) -> Vec<u8>; 6] = [
        |depth| short(depth, -1_000_000_000),
        |depth| short(depth, 1_000_000_000),
        |depth| open(depth, 5, 5, 5),
        |depth| open(depth, -1, 7, 8),
        |depth| open(depth, 0, -1_000_000_000, 1_000_000_000),
        |depth| batched(depth, 3, 0, 9, u32::MAX),
    ];
    let log = |kinds: [usize; 5]| {
        let [zero, one, two, three, four] = [0, 1, 2, 3, 4].map(|number| opens[kinds[number]]([0, 1, 2, 2, 1][number]));
        [zero, one, two, close(2), three, close(2), close(1), four, close(1), close(0)].concat()
    };
    let alike = (0..6).map(|kind| [kind; 5]);
    for kinds in alike.chain([[0, 1, 2, 3, 4], [5, 4, 3, 2, 1], [2, 5, 0, 5, 3], [4, 0, 5, 1, 2]]) {
        let log = log(kinds);
        for (a, b, due) in [(2, 3, 1), (1, 3, 1), (2, 4, 0), (1, 4, 0), (0, 3, 0), (3, 3, 3), (4, 4, 4)] {
            assert_common(&log, a, b, due);
        }
        assert_refused(&log, 4, 5, 19);
    }
}

#[test]
fn batches_are_no_records() {
    // Some of them begin like a record.
    for batch in BATCHES {
        let of = |depth, held: &[Vec<u8>]| [batched(depth, 2, 0, 9, batch), held.concat(), close(depth)].concat();
        let log = of(0, &[of(1, &[of(2, &[]), leaf(2, 1)]), of(1, &[])]);
        for (a, b, due) in [(2, 3, 1), (2, 4, 0), (1, 2, 1), (4, 4, 4)] {
            assert_common(&log, a, b, due);
        }
        assert_refused(&log, 0, 5, 19);
    }
}

/// Logs of 1, 3, 13, 64, 256, 257 and 4,096 records.
fn logs_of_all_lengths() -> [(Vec<u8>, u32); 7] {
    let flat = |opened: usize| (flat(&vec![1; opened - 1]), opened as u32);
    [(leaf(0, 1), 1), (log_d().concat(), 3), (farm(), 13), (chain(0, 63, 1), 64), flat(256), flat(257), (longest_log(), 4096)]
}

#[test]
fn a_number_not_below_the_opened_count_gets_19() {
    for (log, opened) in logs_of_all_lengths() {
        let last = opened - 1;
        assert_common(&log, last, last, last);
        assert_common(&log, 0, last, 0);
        for past in [opened, opened + 1, opened + 2, 2 * opened, 5000, 65_535, 1 << 31, u32::MAX - 1, u32::MAX] {
            // One of them, whichever, or both.
            for other in [0, last, past, u32::MAX] {
                assert_refused(&log, past, other, 19);
            }
        }
    }
}

#[test]
fn numbers_are_not_cut_to_fewer_bits() {
    // In their low bits they are 0, or the last record's number; with a sign the third is below 0.
    for (log, opened) in logs_of_all_lengths() {
        for bit in (0..32).map(|bit| 1 << bit).filter(|&bit| bit >= opened) {
            for past in [bit, bit + opened - 1, u32::MAX - opened + 1] {
                assert_refused(&log, past, 0, 19);
                assert_refused(&log, opened - 1, past, 19);
                assert_refused(&log, past, past, 19);
            }
        }
    }
}

#[test]
fn closes_have_no_number() {
    // Log D has six records, and opens three of them.
    let log = log_d().concat();
    for number in [3, 4, 5, 6] {
        assert_refused(&log, number, 0, 19);
        assert_refused(&log, number, 2, 19);
        assert_refused(&log, number, number, 19);
    }
}

/// Two numbers that are there in a log of three records, and such of which one or both are not.
const ASKED: [(u32, u32); 8] =
    [(0, 0), (1, 2), (2, 2), (0, 5000), (1, 1 << 16), (65_536, 65_536), (0, u32::MAX), (u32::MAX, u32::MAX)];

#[test]
fn a_log_with_a_fault_gets_its_number_whatever_is_asked() {
    for (log, number) in faulty_logs() {
        for (a, b) in ASKED {
            assert_refused(&log, a, b, number);
        }
        assert_eq!(day(&log), Err(number));
    }
}

#[test]
fn a_fault_behind_both_records_counts() {
    for (log, number) in spoilt_at_its_end(&log_d().concat()) {
        for (a, b) in ASKED {
            assert_refused(&log, a, b, number);
        }
    }
}
