//! The records behind the heaviest line: the proved library against the reference, every byte of every buffer. What L7 says sentence by
//! sentence, and its laws, are put to the library by `document_02`.

use compare::agree::heaviest_line as agree;
use compare::{calls, LentBytes};
use reference::gen::logs::{self, Shape, Values};
use reference::gen::raw::{all_of, batched, close, faulty_logs, log_d, longest_log, open, short};
use reference::gen::{damage, Rng};
use reference::record::encode_all;
use tulghimo::raw::{self, LONGEST_HEAVIEST_LINE};

const LIMIT: i32 = 1_000_000_000;

/// Every answer is this refusal.
fn assert_refused(answers: &[i64], number: u8) {
    assert!(answers.iter().all(|&answer| answer == -i64::from(number)), "{answers:?}, and {number} is due");
}

/// Records of the depths from one to another and of these values, each held by the one before.
fn chain(from: u16, values: &[i32]) -> Vec<u8> {
    let down = values.iter().zip(from..).flat_map(|(&value, depth)| short(depth, value));
    let up = (from..from + values.len() as u16).rev().flat_map(close);
    down.chain(up).collect()
}

/// A first record of no weight around what is given.
fn under_a_first(held: &[Vec<u8>]) -> Vec<u8> {
    [short(0, 0), held.concat(), close(0)].concat()
}

#[test]
fn all_small_logs() {
    let mut rng = Rng::new(0x4e40);
    for opened in 1..=7 {
        for shape in logs::all_shapes(opened) {
            for values in [Values::Few, Values::Few, Values::Few, Values::Small, Values::Ends, Values::Full] {
                let log = logs::of_shape(&mut rng, &shape, values);
                assert!(agree(&logs::encode_mixed(&mut rng, &log)).iter().any(|&answer| answer > 0));
            }
        }
    }
}

#[test]
fn four_records_of_all_kinds() {
    // Of two depths an open of each length and a close, and one that is not readable.
    let of_depth = |depth| [short(depth, 5), open(depth, 5, -1, 3), batched(depth, 6, -1, 3, 0x0001_000a), close(depth)];
    let records = [&of_depth(0)[..], &of_depth(1), &[close(64)]].concat();
    for count in 0..=4 {
        for log in all_of(&records, count) {
            agree(&log);
        }
    }
}

#[test]
fn random_logs_and_damaged_ones() {
    let mut rng = Rng::new(0x4e41);
    for round in 0..3000 {
        let most = if round % 100 < 2 { 2500 } else { 60 };
        let log = if round % 2 == 0 { logs::any_log(&mut rng, most) } else { logs::log_with_ties(&mut rng, most) };
        let bytes = logs::encode_mixed(&mut rng, &log);
        agree(&bytes);
        agree(&damage::damage(&mut rng, &bytes));
        agree(&damage::noise(&mut rng, 40));
    }
}

#[test]
fn logs_with_each_fault() {
    let mut rng = Rng::new(0x4e42);
    // No log of this length has 9: at most 6,553 opens of 10 bytes fit 65,536.
    for fault in [7, 8, 10, 11] {
        for _ in 0..200 {
            let log = logs::with_fault(&mut rng, fault);
            assert_refused(&agree(&logs::encode_mixed(&mut rng, &log)), fault);
        }
    }
    for (log, number) in faulty_logs() {
        assert_refused(&agree(&log), number);
    }
}

#[test]
fn every_byte_of_a_log_changed() {
    let mut rng = Rng::new(0x4e43);
    for _ in 0..20 {
        let log = logs::log_with_ties(&mut rng, 9);
        let log = logs::encode_mixed(&mut rng, &log);
        for place in 0..log.len() {
            for value in [0, 1, 2, 0x3b, 0x3c, 0x7f, 0x80, 0xc4, 0xff, log[place] ^ 1] {
                let mut changed = log.clone();
                changed[place] = value;
                agree(&changed);
            }
        }
    }
}

#[test]
fn slices_of_every_length_at_every_address() {
    let mut rng = Rng::new(0x4e44);
    let log = logs::log(&mut rng, Shape::Bushy, Values::Few, 12);
    let log = logs::encode_mixed(&mut rng, &log);
    for before in 0..16 {
        // Other bytes stand before the slice, and the rest of the log after it.
        let lent = [vec![0xa5; before], log.clone(), short(0, 1)].concat();
        for end in before..=lent.len() {
            agree(&lent[before..end]);
        }
        assert!(raw::heaviest_line(&lent[before..before + log.len()], &mut [0; LONGEST_HEAVIEST_LINE]) > 0);
    }
    for first in 1..=log.len() {
        agree(&log[first..]);
    }
}

#[test]
fn buffers_of_every_length() {
    for count in [1, 2, 3, 31, 32, 33, 63, 64] {
        // Beside the second record of the line one that is as heavy, and comes later.
        let mut log = chain(0, &vec![1; count]);
        if count > 1 {
            let end = log.len() - 6;
            log.splice(end..end, chain(1, &[count as i32 - 1]));
        }
        let expected = reference::calls::heaviest_line(&log, LONGEST_HEAVIEST_LINE).expect("a well-formed log");
        assert_eq!(expected.len(), 4 * count);
        for capacity in 0..=LONGEST_HEAVIEST_LINE + 8 {
            let due = if capacity < expected.len() { Err(12) } else { Ok(expected.clone()) };
            LentBytes::new(capacity).check(&due, |out| raw::heaviest_line(&log, out));
        }
    }
}

#[test]
fn no_byte_behind_the_result_or_under_a_refusal() {
    let d = log_d().concat();
    let deep = chain(0, &[1; 64]);
    let two_days = d.repeat(2);
    // With two fillings: a byte that is written differs from one of them.
    for filling in [0x5a, 0xa5] {
        for (log, capacity, answer) in [
            (&d[..], 7, -12),
            (&d, 8, 8),
            (&d, 9, 8),
            (&d, 256, 8),
            (&deep, 255, -12),
            (&deep, 256, 256),
            (&deep, 300, 256),
            (&two_days, 256, -8),
            (&d[..66], 256, -11),
            (&d[..71], 256, -3),
            (&[], 256, -10),
        ] {
            let mut out = vec![filling; capacity];
            assert_eq!(raw::heaviest_line(log, &mut out), answer, "{} bytes", log.len());
            let written = usize::try_from(answer).unwrap_or(0);
            assert!(out[written..].iter().all(|&byte| byte == filling), "{} bytes, {capacity} lent", log.len());
        }
    }
}

#[test]
fn the_heaviest_at_many_places_of_the_longest_log() {
    let log = longest_log();
    agree(&log);
    // Record k, from 1 on, begins at 10 + 16 × (k - 1), and its value 6 bytes later.
    for number in (1..=4095).step_by(89).chain([2, 255, 256, 257, 2048, 4094, 4095]) {
        let mut heavier = log.clone();
        heavier[16 * number] = 2;
        let due = [0u32, number as u32].map(u32::to_le_bytes).concat();
        assert_eq!(calls::heaviest_line(&heavier, 8), Ok(due));
        // As heavy as one that comes before, and one that comes after.
        for other in [16, 16 * 4095] {
            let mut equal = heavier.clone();
            equal[other] = 2;
            agree(&equal);
        }
    }
}

#[test]
fn logs_at_the_longest() {
    let log = longest_log();
    agree(&log[..65_535]);
    agree(&[&log[..], &[0]].concat());
    // 65 chains of 63, and 4,033 records held by the last of 63: each with one that weighs more.
    for heavy in [0, 1, 40, 64] {
        let values = |place| [&[1; 62][..], &[1 + i32::from(place == heavy)]].concat();
        let log = under_a_first(&(0..65).map(|place| chain(1, &values(place))).collect::<Vec<_>>());
        assert_eq!(log.len(), 65_536);
        assert!(agree(&log).contains(&256));
    }
    for heavy in [0, 1, 2000, 4032] {
        let last = (0..4033).flat_map(|place| chain(63, &[i32::from(place == heavy)])).collect::<Vec<_>>();
        let mut log = chain(0, &[1; 63]);
        log.splice(630..630, last);
        assert_eq!(log.len(), 65_536);
        assert!(agree(&log).contains(&256));
    }
    // 2,730 full records, 65,520 bytes.
    agree(&encode_all(&logs::flat(2730)));
}

#[test]
fn values_at_both_ends() {
    // Two chains of up to 63 records each, at the ends of the range and next to them.
    for count in [1, 2, 3, 4, 5, 8, 62, 63] {
        for one in [-LIMIT, -LIMIT + 1, LIMIT - 1, LIMIT] {
            for other in [-LIMIT, -LIMIT + 1, 0, LIMIT - 1, LIMIT] {
                let [first, second] = [one, other].map(|value| chain(1, &vec![value; count]));
                agree(&under_a_first(&[first.clone(), second.clone()]));
                agree(&under_a_first(&[second, first, chain(1, &[one]), chain(1, &[other])]));
            }
        }
    }
}
