//! Sixty lines to the page: the proved library against the reference, every byte of every buffer. What L9 says sentence by sentence,
//! and its laws, are put to the library by `document_02`.

use compare::agree::sheet as agree;
use compare::{calls, LentBytes};
use reference::gen::logs::{self, Shape, Values, VALUES};
use reference::gen::pages::{page, paged_log, wraps};
use reference::gen::raw::{all_of, batched, close, faulty_logs, log_d, longest_log, open, short, MODES, RANGE};
use reference::gen::{damage, Rng};
use reference::log::opened;
use reference::record::encode_all;
use std::path::Path;
use tulghimo::raw::{self, LONGEST_PAGE};

const LIMIT: i32 = 1_000_000_000;

/// Every answer is this refusal.
fn assert_refused(answers: &[i64], number: u8) {
    assert!(answers.iter().all(|&answer| answer == -i64::from(number)), "{answers:?}, and {number} is due");
}

/// Records of the depths from one on and of these values, each held by the one before; the last holds what is given.
fn chain_around(from: u16, values: &[i32], held: &[u8]) -> Vec<u8> {
    let down = values.iter().zip(from..).flat_map(|(&value, depth)| short(depth, value));
    let up = (from..from + values.len() as u16).rev().flat_map(close);
    down.chain(held.to_vec()).chain(up).collect()
}

/// The same, and the last holds nothing.
fn chain(from: u16, values: &[i32]) -> Vec<u8> {
    chain_around(from, values, &[])
}

/// A first record of a value, and so many that it holds, all of another.
fn flat(first: i32, value: i32, count: usize) -> Vec<u8> {
    [short(0, first), chain(1, &[value]).repeat(count), close(0)].concat()
}

/// Every page of a log of so many records in a mode, and the next one, which must get 18.
fn pages_agree(log: &[u8], opened: usize, mode: u16) {
    let count = opened.div_ceil(60);
    for page in 0..count {
        let lines = (opened - 60 * page).min(60) as i64;
        assert!(agree(log, mode.into(), page as u32).contains(&(27 * lines)), "mode {mode}, page {page}");
    }
    assert_refused(&agree(log, mode.into(), count as u32), 18);
}

/// The same in every mode.
fn every_page_agrees(log: &[u8], opened: usize) {
    MODES.iter().for_each(|&mode| pages_agree(log, opened, mode));
}

#[test]
fn all_small_logs() {
    let mut rng = Rng::new(0x5e40);
    for opened in 1..=7 {
        for shape in logs::all_shapes(opened) {
            for values in [Values::Few, Values::Small, Values::Ends, Values::Full] {
                let log = logs::of_shape(&mut rng, &shape, values);
                every_page_agrees(&logs::encode_mixed(&mut rng, &log), opened);
            }
        }
    }
}

#[test]
fn as_many_records_as_fill_a_page_and_one_more_or_fewer() {
    let mut rng = Rng::new(0x5e41);
    for count in (1..=122).chain([179, 180, 181, 240, 600]) {
        // Of these shapes a log has exactly as many as are asked for.
        let shape = [Shape::Flat, Shape::Bushy, Shape::Deep, Shape::Any][count % 4];
        let log = logs::log(&mut rng, shape, VALUES[count % 3], count);
        every_page_agrees(&logs::encode_mixed(&mut rng, &log), count);
    }
}

#[test]
fn four_records_of_all_kinds() {
    // Of two depths an open of each length and a close, and one that is not readable.
    let of_depth = |depth| [short(depth, 5), open(depth, 5, -1, 3), batched(depth, 6, -1, 3, 0x0001_000a), close(depth)];
    let records = [&of_depth(0)[..], &of_depth(1), &[close(64)]].concat();
    for count in 0..=4 {
        for (place, log) in all_of(&records, count).into_iter().enumerate() {
            agree(&log, MODES[place % 4].into(), 0);
            agree(&log, 5, place as u32 % 2);
        }
    }
}

#[test]
fn random_logs_and_damaged_ones() {
    let mut rng = Rng::new(0x5e42);
    for round in 0..2500 {
        let log = if round % 100 < 2 { logs::any_log(&mut rng, 2500) } else { paged_log(&mut rng) };
        let (mode, page) = (MODES[round % 4].into(), page(&mut rng, opened(&log) as usize));
        let bytes = logs::encode_mixed(&mut rng, &log);
        agree(&bytes, mode, page);
        agree(&damage::damage(&mut rng, &bytes), mode, page);
        agree(&damage::noise(&mut rng, 40), mode, page);
    }
}

#[test]
fn logs_with_each_fault() {
    let mut rng = Rng::new(0x5e43);
    // No log of this length has 9: at most 6,553 opens of 10 bytes fit 65,536.
    for fault in [7, 8, 10, 11] {
        for round in 0..200 {
            let log = logs::with_fault(&mut rng, fault);
            let page = page(&mut rng, opened(&log) as usize);
            assert_refused(&agree(&logs::encode_mixed(&mut rng, &log), MODES[round % 4].into(), page), fault);
        }
    }
    // Before 18, and in empty and short buffers before 12.
    for (log, number) in faulty_logs() {
        for mode in MODES.map(u32::from) {
            for page in [0, 1, 69, 71_582_789, u32::MAX] {
                assert_refused(&agree(&log, mode, page), number);
            }
        }
    }
}

#[test]
fn modes_out_of_use_get_1() {
    let logs = [log_d().concat(), longest_log(), vec![0xff; 70_000], close(64)];
    for mode in [0, 3, 6, 7, 255, 256, 257, 258, 260, 261, 65_535, 65_536, 65_537, 65_540, 65_541, 1 << 31, u32::MAX] {
        for log in logs.iter().chain(faulty_logs().iter().map(|(log, _)| log)) {
            for page in [0, 1, 69, u32::MAX] {
                assert_refused(&agree(log, mode, page), 1);
            }
        }
    }
}

#[test]
fn every_bit_of_a_log_flipped() {
    let mut rng = Rng::new(0x5e44);
    for round in 0..24 {
        let log = if round < 20 { logs::any_log(&mut rng, 9) } else { logs::log(&mut rng, Shape::Any, Values::Small, 61) };
        let mut log = logs::encode_mixed(&mut rng, &log);
        let (mode, page) = (MODES[round % 4].into(), u32::from(round >= 20));
        for bit in 0..8 * log.len() {
            log[bit / 8] ^= 1 << (bit % 8);
            agree(&log, mode, page);
            log[bit / 8] ^= 1 << (bit % 8);
        }
    }
}

#[test]
fn every_byte_of_a_log_changed() {
    let mut rng = Rng::new(0x5e45);
    for round in 0..20 {
        let log = logs::any_log(&mut rng, 9);
        let log = logs::encode_mixed(&mut rng, &log);
        for place in 0..log.len() {
            for value in [0, 1, 2, 0x3b, 0x3c, 0x7f, 0x80, 0xc4, 0xff, log[place] ^ 1] {
                let mut changed = log.clone();
                changed[place] = value;
                agree(&changed, MODES[round % 4].into(), 0);
            }
        }
    }
}

#[test]
fn slices_of_every_length_at_every_address() {
    let mut rng = Rng::new(0x5e46);
    let log = logs::log(&mut rng, Shape::Bushy, Values::Small, 12);
    let log = logs::encode_mixed(&mut rng, &log);
    for before in 0..16 {
        // Other bytes stand before the slice, and the rest of the log after it.
        let lent = [vec![0xa5; before], log.clone(), short(0, 1)].concat();
        for end in before..=lent.len() {
            agree(&lent[before..end], MODES[before % 4].into(), 0);
        }
        assert_eq!(raw::sheet(&lent[before..before + log.len()], 5, 0, &mut [0; LONGEST_PAGE]), 12 * 27);
    }
    for first in 1..=log.len() {
        agree(&log[first..], 5, 0);
    }
}

#[test]
fn buffers_of_every_length() {
    for (opened, page, lines) in [(1, 0, 1), (2, 0, 2), (59, 0, 59), (60, 0, 60), (61, 0, 60), (61, 1, 1), (100, 1, 40)] {
        let log = flat(-5, 1_234_567, opened - 1);
        let expected = reference::calls::sheet(&log, 1, page, LONGEST_PAGE).expect("a page that there is");
        assert_eq!(expected.len(), 27 * lines);
        for capacity in 0..=LONGEST_PAGE + 8 {
            let due = if capacity < expected.len() { Err(12) } else { Ok(expected.clone()) };
            LentBytes::new(capacity).check(&due, |out| raw::sheet(&log, 1, page, out));
        }
    }
}

#[test]
fn no_byte_behind_the_result_or_under_a_refusal() {
    let d = log_d().concat();
    let long = longest_log();
    let two_days = d.repeat(2);
    // With two fillings: a byte that is written differs from one of them.
    for filling in [0x5a, 0xa5] {
        for (log, mode, page, capacity, answer) in [
            (&d[..], 1, 0, 80, -12),
            (&d, 1, 0, 81, 81),
            (&d, 1, 0, 82, 81),
            (&d, 4, 0, 1620, 81),
            (&d, 5, 1, 1620, -18),
            (&d, 5, 1, 0, -18),
            (&d, 2, u32::MAX, 1620, -18),
            (&d, 3, 0, 1620, -1),
            (&long, 1, 0, 1619, -12),
            (&long, 1, 0, 1620, 1620),
            (&long, 1, 0, 2000, 1620),
            // 4,096 is 68 times 60 and 16 more.
            (&long, 2, 68, 431, -12),
            (&long, 2, 68, 432, 432),
            (&long, 2, 68, 1620, 432),
            (&long, 2, 69, 1620, -18),
            (&long, 2, 71_582_789, 1620, -18),
            (&two_days, 1, 0, 1620, -8),
            (&d[..66], 1, 0, 1620, -11),
            (&d[..71], 1, 0, 1620, -3),
            (&[], 1, 0, 1620, -10),
        ] {
            let mut out = vec![filling; capacity];
            assert_eq!(raw::sheet(log, mode, page, &mut out), answer, "{} bytes, page {page}", log.len());
            let written = usize::try_from(answer).unwrap_or(0);
            assert!(out[written..].iter().all(|&byte| byte == filling), "{} bytes, page {page}, {capacity} lent", log.len());
        }
    }
}

#[test]
fn every_page_of_the_longest_logs() {
    // 4,096 records: 4,095 under a first one, in one level or in 65 lines of 63; or 63 down, the last holding 4,033.
    let deep = |value: i32| [short(0, value), chain(1, &[value; 63]).repeat(65), close(0)].concat();
    let at_the_bottom = |value: i32| chain_around(0, &[value; 63], &chain(63, &[value]).repeat(4033));
    let logs = [flat(LIMIT, LIMIT, 4095), at_the_bottom(LIMIT), deep(-LIMIT), deep(LIMIT), flat(-LIMIT, -LIMIT, 4095)];
    for (log, all) in logs.iter().zip(MODES.into_iter().cycle()) {
        assert_eq!(log.len(), 65_536);
        pages_agree(log, 4096, all);
        for (page, mode) in [0, 1, 34, 67, 68].into_iter().flat_map(|page| MODES.map(|mode| (page, mode))) {
            assert!(agree(log, mode.into(), page).iter().any(|&answer| answer > 0), "mode {mode}, page {page}");
        }
    }
    // 2,730 full records, 65,520 bytes.
    pages_agree(&encode_all(&logs::flat(2730)), 2730, 5);
    // A byte fewer, and a byte more.
    let log = longest_log();
    assert_refused(&agree(&log[..65_535], 1, 0), 3);
    assert_refused(&agree(&[&log[..], &[0]].concat(), 1, 0), 2);
}

#[test]
fn pages_whose_60_times_wraps() {
    // Past k times 2^32 by less than 60, and some pages on; exactly 15, 30 and 45 times 2^32; and past 2^31 and 2^16.
    let past: Vec<u32> = (1..=59).flat_map(|times| [0, 1, 34, 68].map(|more| wraps(times) + more)).collect();
    let at_once = [1 << 30, 1 << 31, 3 << 30, (1 << 30) + 1, (1 << 31) + 68, 35_791_395, 1 << 14, (1 << 14) + 1];
    let in_fewer_bits = [256, 257, 65_536, 65_537, 65_536 + 68, 1 << 24, u32::MAX, u32::MAX - 1, 71_582_788];
    for opened in [1, 59, 60, 61, 120, 4096] {
        let log = flat(7, -7, opened - 1);
        for &page in past.iter().chain(&at_once).chain(&in_fewer_bits) {
            for capacity in [0, 26, 27, LONGEST_PAGE] {
                assert_eq!(calls::sheet(&log, 1, page, capacity), Err(18), "page {page} of {opened} records");
            }
        }
        agree(&log, 1, 71_582_789);
    }
}

#[test]
fn a_page_past_the_end_gets_18_in_any_buffer() {
    for (opened, count) in [(1, 1), (59, 1), (60, 1), (61, 2), (120, 2), (121, 3), (4096, 69)] {
        let log = flat(1, 1, opened - 1);
        for capacity in (0..=54).chain([1619, 1620, 1621]) {
            assert_eq!(calls::sheet(&log, 1, count, capacity), Err(18), "{opened} records, {capacity} bytes");
        }
        assert_eq!(calls::sheet(&log, 1, count - 1, 26), Err(12), "{opened} records");
    }
}

#[test]
fn figures_at_both_ends() {
    let ends = [-LIMIT, -LIMIT + 1, -1, 0, 1, LIMIT - 1, LIMIT];
    // Under a first record as many as take sums to 10, 11, 12 and 13 digits; and lines of up to 64.
    for value in ends {
        for first in ends {
            for count in [0, 1, 8, 9, 10, 98, 99, 100, 998, 999, 1000, 4094, 4095] {
                let log = flat(first, value, count);
                MODES.iter().for_each(|&mode| assert!(agree(&log, mode.into(), 0).iter().any(|&answer| answer > 0)));
            }
            for count in [1, 2, 9, 10, 62, 63] {
                every_page_agrees(&chain(0, &[&[first][..], &vec![value; count]].concat()), count + 1);
            }
        }
    }
}

#[test]
fn bounds_at_both_ends() {
    let ends = [-LIMIT, -LIMIT + 1, -1, 0, 1, LIMIT - 1, LIMIT];
    for value in ends {
        for (floor, ceiling) in ends.into_iter().flat_map(|floor| ends.map(|ceiling| (floor, ceiling))) {
            // Holding nothing, and one record; as the first and within another.
            let bound = [open(1, value, floor, ceiling), chain(2, &[value]), close(1)].concat();
            let log = [open(0, value, floor, ceiling), bound, open(1, value, floor, ceiling), close(1), close(0)].concat();
            for mode in MODES.map(u32::from) {
                let answers = agree(&log, mode, 0);
                assert_eq!(answers.contains(&(4 * 27)), floor <= ceiling, "{floor} to {ceiling}");
            }
        }
    }
}

#[test]
fn stamps_on_both_sides_of_2_32() {
    let stamp = |log: &[u8]| {
        let line = calls::sheet(log, 4, 0, LONGEST_PAGE).expect("a well-formed log")[10..26].to_vec();
        String::from_utf8(line).expect("text").trim_start().parse::<i64>().expect("a number")
    };
    for value in -70..=70 {
        // Alone; over -1; and over 0 over -1.
        assert_eq!(stamp(&chain(0, &[value])), i64::from(value).rem_euclid(RANGE));
        assert_eq!(stamp(&chain(0, &[value, -1])), i64::from(value - 31).rem_euclid(RANGE));
        assert_eq!(stamp(&chain(0, &[value, 0, -1])), i64::from(value - 961).rem_euclid(RANGE));
    }
    for count in [1, 2, 3, 17, 1000, 4095] {
        for value in [-LIMIT, -1, 1, LIMIT] {
            let due = (i64::from(value) + 31 * i64::from(value) * count as i64).rem_euclid(RANGE);
            assert_eq!(stamp(&flat(value, value, count)), due);
            agree(&flat(value, value, count), 4, count as u32 / 60);
        }
    }
}

#[test]
fn a_record_on_any_page_counts_in_the_first_line() {
    let log = longest_log();
    let line = |number| format!("{number:>6} {:>2} {:>16}\n", u8::from(number > 0), if number == 0 { 4096 } else { 1 });
    let before = (0..4096).map(line).collect::<String>().into_bytes();
    // Record k, from 1 on, begins at 10 + 16 × (k - 1), and its value 6 bytes later.
    for number in (1..=4095).step_by(237).chain([59, 60, 61, 4079, 4080, 4094, 4095]) {
        let mut heavier = log.clone();
        heavier[16 * number] = 3;
        let mut due = before.clone();
        due[..27].copy_from_slice(b"     0  0             4098\n");
        due[27 * number + 25] = b'3';
        for page in [0, number / 60, 68] {
            let lines = 60 * page..4096.min(60 * page + 60);
            let due = due[27 * lines.start..27 * lines.end].to_vec();
            assert_eq!(calls::sheet(&heavier, 1, page as u32, LONGEST_PAGE), Ok(due), "record {number}, page {page}");
        }
    }
}

#[test]
fn the_sample_logs() {
    let folder = Path::new(env!("CARGO_MANIFEST_DIR")).join("../../samples");
    // How many records each has.
    let whole = [("d", 3), ("d-batches", 3), ("weekday", 172), ("returns", 11), ("quiet", 10), ("deep", 64)];
    for (name, opened) in whole.into_iter().chain([("short-below-zero", 7), ("full-below-zero", 7)]) {
        let log = std::fs::read(folder.join(format!("{name}.log"))).expect(name);
        every_page_agrees(&log, opened);
    }
    for (name, number) in [("level-gap", 7), ("two-days", 8), ("cut-short", 11), ("unreadable", 3), ("empty", 10)] {
        let log = std::fs::read(folder.join(format!("{name}.log"))).expect(name);
        assert_refused(&agree(&log, 5, 0), number);
    }
}
