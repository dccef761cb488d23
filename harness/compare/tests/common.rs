//! The tank two drops have in common: the proved library against the reference. What L10 says sentence by sentence, and its laws, are
//! put to the library by `document_02`.

use compare::agree::common as agree;
use compare::calls;
use reference::gen::logs::{self, Shape, Values};
use reference::gen::pairs::pair;
use reference::gen::raw::{all_of, batched, close, faulty_logs, longest_log, open, short};
use reference::gen::{damage, Rng};
use reference::record::{encode_all_short, records_of, Record};
use std::hint::black_box;
use std::iter::successors;
use std::path::Path;
use tulghimo::{example, raw};

/// Pairs for a log of so many records: the ends, next to each other, the first number that is too large on either side and on both,
/// and such as would be there if they had fewer bits.
fn at_the_ends(opened: u32) -> Vec<[u32; 2]> {
    let last = opened - 1;
    let there = [0, 1, opened / 2, last.saturating_sub(1), last].map(|number| number.min(last));
    let past = [opened, opened + 1, 65_536, 65_536 + last, (1 << 24) + last, 1 << 31, (1 << 31) + last, u32::MAX - last, u32::MAX];
    let all = [&there[..], &past].concat();
    all.iter().flat_map(|&a| all.iter().map(move |&b| [a, b])).collect()
}

/// Records of the depths from one to another, each holding the next; the last holds what is given.
fn chain_around(from: u16, to: u16, held: &[u8]) -> Vec<u8> {
    let down = (from..=to).flat_map(|depth| short(depth, 1));
    down.chain(held.to_vec()).chain((from..=to).rev().flat_map(close)).collect()
}

/// The same, and the last holds nothing.
fn chain(from: u16, to: u16) -> Vec<u8> {
    chain_around(from, to, &[])
}

#[test]
fn all_pairs_of_all_small_logs() {
    let mut rng = Rng::new(0xc040);
    for count in 1..=7 {
        for shape in logs::all_shapes(count) {
            let log = logs::of_shape(&mut rng, &shape, Values::Small);
            let bytes = logs::encode_mixed(&mut rng, &log);
            for (a, b) in (0..=count).flat_map(|a| (0..=count).map(move |b| (a, b))) {
                let answers = agree(&bytes, a as u32, b as u32);
                assert_eq!(answers == [-19], a.max(b) == count, "{answers:?} of {a} and {b}");
            }
        }
    }
}

#[test]
fn four_records_of_all_kinds() {
    // Of two depths an open of each length and a close, and one that is not readable.
    let of_depth = |depth| [short(depth, 5), open(depth, 5, -1, 3), batched(depth, 6, -1, 3, 0x0001_000a), close(depth)];
    let records = [&of_depth(0)[..], &of_depth(1), &[close(64)]].concat();
    for count in 0..=4 {
        for log in all_of(&records, count) {
            for [a, b] in [[0, 0], [1, 0], [1, 1], [2, 1], [u32::MAX, 0]] {
                agree(&log, a, b);
            }
        }
    }
}

#[test]
fn random_logs_and_damaged_ones() {
    let mut rng = Rng::new(0xc041);
    for round in 0..3000 {
        let log = logs::any_log(&mut rng, if round % 100 == 0 { 2500 } else { 60 });
        let bytes = logs::encode_mixed(&mut rng, &log);
        let [a, b] = pair(&mut rng, &log);
        agree(&bytes, a, b);
        agree(&damage::damage(&mut rng, &bytes), a, b);
        agree(&damage::noise(&mut rng, 40), a, b);
    }
}

/// For each opened record the one that directly holds it: the last before it that is one depth less deep.
fn holders(log: &[u8]) -> Vec<Option<usize>> {
    let records = records_of(log).expect("readable records");
    let depths: Vec<usize> = records.iter().filter(|record| record.is_open()).map(Record::depth).collect();
    (0..depths.len()).map(|number| depths[..number].iter().rposition(|depth| depth + 1 == depths[number])).collect()
}

/// What two records have in common, by who holds them: from the one upwards the first that is or holds the other.
fn by_holders(holders: &[Option<usize>], a: u32, b: u32) -> u32 {
    let upwards = |number: u32| successors(Some(number as usize), |&number| holders[number]);
    let others: Vec<usize> = upwards(b).collect();
    upwards(a).find(|number| others.contains(number)).expect("the record that the log begins with") as u32
}

#[test]
fn many_pairs_of_the_longest_logs() {
    let mut rng = Rng::new(0xc042);
    for shape in [Shape::Flat, Shape::Bushy, Shape::Deep, Shape::Any] {
        // Of these shapes a log has exactly as many records as are asked for: 4,096 of 10 and 6 bytes.
        let records = logs::log(&mut rng, shape, Values::Full, 4096);
        let log = encode_all_short(&records);
        assert_eq!(log.len(), 65_536);
        let holders = holders(&log);
        for round in 0..1500 {
            let [a, b] = pair(&mut rng, &records);
            let due = if a.max(b) < 4096 { Ok(by_holders(&holders, a, b)) } else { Err(19) };
            assert_eq!(calls::common(&log, a, b), due, "{shape:?}: records {a} and {b}");
            // The reference takes longer.
            if round % 50 == 0 {
                agree(&log, a, b);
            }
        }
        for [a, b] in at_the_ends(4096).into_iter().step_by(5) {
            agree(&log, a, b);
        }
    }
}

#[test]
fn the_first_number_that_is_too_large() {
    for count in [1, 2, 3, 64, 255, 256, 257] {
        let log = encode_all_short(&logs::flat(count));
        let opened = count as u32;
        for [a, b] in at_the_ends(opened) {
            assert_eq!(agree(&log, a, b) == [-19], a.max(b) >= opened, "records {a} and {b} of {opened}");
        }
    }
}

#[test]
fn lines_down_to_every_depth() {
    for deepest in 0..=63 {
        let log = chain(0, deepest);
        let last = u32::from(deepest);
        for number in 0..=last {
            assert_eq!(agree(&log, number, last), [i64::from(number)]);
            assert_eq!(agree(&log, last, number), [i64::from(number)]);
        }
        assert_eq!(agree(&log, last + 1, last), [-19]);
    }
}

#[test]
fn branches_that_part_at_every_depth() {
    for depth in 0..=62 {
        // Two lines down to depth 63, and a drop before, between and behind them.
        let (line, drop) = (chain(depth + 1, 63), chain(depth + 1, depth + 1));
        let log = chain_around(0, depth, &[&drop[..], &line, &drop, &line, &drop].concat());
        let upper = u32::from(depth);
        let length = 63 - upper;
        // The first number of each of these five, and the last of each line.
        let firsts = [0, 1, 1 + length, 2 + length, 2 + 2 * length].map(|before| upper + 1 + before);
        let ends = [&firsts[..], &[firsts[2] - 1, firsts[4] - 1]].concat();
        let which = |number: u32| firsts.iter().filter(|&&first| first <= number).count();
        for (a, b) in ends.iter().flat_map(|&a| ends.iter().map(move |&b| (a, b))) {
            let due = if which(a) == which(b) { a.min(b) } else { upper };
            assert_eq!(agree(&log, a, b), [i64::from(due)], "records {a} and {b}");
        }
        assert_eq!(agree(&log, firsts[4] + 1, upper), [-19]);
    }
}

#[test]
fn logs_with_each_fault() {
    let mut rng = Rng::new(0xc043);
    // No log of this length has 9: at most 6,553 opens of 10 bytes fit 65,536.
    for fault in [7, 8, 10, 11] {
        for _ in 0..200 {
            let log = logs::with_fault(&mut rng, fault);
            let [a, b] = pair(&mut rng, &log);
            assert_eq!(agree(&logs::encode_mixed(&mut rng, &log), a, b), [-i64::from(fault)]);
        }
    }
    // Before 19, on either side and on both.
    for (log, number) in faulty_logs() {
        for [a, b] in [[0, 0], [0, 1], [1, 0], [5000, 0], [0, 5000], [5000, 5000], [0, u32::MAX], [u32::MAX, u32::MAX]] {
            assert_eq!(agree(&log, a, b), [-i64::from(number)], "{} bytes, records {a} and {b}", log.len());
        }
    }
}

#[test]
fn every_bit_of_a_log_flipped() {
    let mut rng = Rng::new(0xc044);
    for _ in 0..24 {
        let log = logs::any_log(&mut rng, 9);
        let [a, b] = pair(&mut rng, &log);
        let mut log = logs::encode_mixed(&mut rng, &log);
        for bit in 0..8 * log.len() {
            log[bit / 8] ^= 1 << (bit % 8);
            agree(&log, a, b);
            log[bit / 8] ^= 1 << (bit % 8);
        }
    }
}

#[test]
fn every_byte_of_a_log_changed() {
    let mut rng = Rng::new(0xc045);
    for _ in 0..20 {
        let log = logs::any_log(&mut rng, 9);
        let [a, b] = pair(&mut rng, &log);
        let log = logs::encode_mixed(&mut rng, &log);
        for place in 0..log.len() {
            for value in [0, 1, 2, 0x3b, 0x3c, 0x7f, 0x80, 0xc4, 0xff, log[place] ^ 1] {
                let mut changed = log.clone();
                changed[place] = value;
                agree(&changed, a, b);
            }
        }
    }
}

#[test]
fn slices_of_every_length_at_every_address() {
    let mut rng = Rng::new(0xc046);
    let records = logs::log(&mut rng, Shape::Bushy, Values::Small, 12);
    let log = logs::encode_mixed(&mut rng, &records);
    for before in 0..16 {
        // Other bytes stand before the slice, and the rest of the log after it.
        let lent = [vec![0xa5; before], log.clone(), short(0, 1)].concat();
        for end in before..=lent.len() {
            agree(&lent[before..end], 11, before as u32);
        }
        assert_eq!(agree(&lent[before..before + log.len()], 11, 11), [11]);
    }
    for first in 1..=log.len() {
        agree(&log[first..], 1, 2);
    }
}

#[test]
fn no_byte_of_the_log_is_written() {
    let mut rng = Rng::new(0xc047);
    for _ in 0..200 {
        let log = logs::log_or_faulty(&mut rng, 60);
        let [a, b] = pair(&mut rng, &log);
        let bytes = logs::encode_mixed(&mut rng, &log);
        // With 64 bytes before the log and 64 after it.
        let before = [vec![0xa5; 64], bytes.clone(), vec![0x5a; 64]].concat();
        let lent = before.clone();
        black_box(raw::common(black_box(&lent[64..64 + bytes.len()]), a, b));
        assert!(black_box(lent) == before, "records {a} and {b}");
    }
    // A constant stands where nothing can be written.
    assert_eq!([raw::common(example::LOG_D, 1, 2), raw::common(example::LOG_D, 1, 3)], [0, -19]);
}

#[test]
fn a_length_at_the_longest() {
    let log = longest_log();
    for [a, b] in [[0, 0], [4095, 4095], [4094, 4095], [4096, 0]] {
        agree(&log, a, b);
        // A byte fewer, and a byte more.
        assert_eq!(agree(&log[..65_535], a, b), [-3]);
        assert_eq!(agree(&[&log[..], &[0]].concat(), a, b), [-2]);
    }
    // 2,340 records with a batch, of 22 and 6 bytes, and a short one of 10 and 6.
    let held = [batched(1, 1, -7, 7, 9), close(1)].concat().repeat(2339);
    let log = [batched(0, 1, -7, 7, 8), held, short(1, 1), close(1), close(0)].concat();
    assert_eq!(log.len(), 65_536);
    for (a, b, answer) in [(2340, 2340, 2340), (2339, 2340, 0), (2340, 2341, -19)] {
        assert_eq!(agree(&log, a, b), [answer]);
    }
}

#[test]
fn the_sample_logs() {
    let read = |name: &str| {
        let path = Path::new(env!("CARGO_MANIFEST_DIR")).join("../../samples").join(format!("{name}.log"));
        std::fs::read(path).expect(name)
    };
    // How many records each has.
    let whole = [("d", 3), ("d-batches", 3), ("weekday", 172), ("returns", 11), ("quiet", 10), ("deep", 64)];
    for (name, opened) in whole.into_iter().chain([("short-below-zero", 7), ("full-below-zero", 7)]) {
        let log = read(name);
        let holders = holders(&log);
        for (a, b) in (0..opened).flat_map(|a| (0..opened).map(move |b| (a, b))) {
            assert_eq!(calls::common(&log, a, b), Ok(by_holders(&holders, a, b)), "{name}: records {a} and {b}");
        }
        for [a, b] in at_the_ends(opened) {
            agree(&log, a, b);
        }
    }
    for (name, number) in [("level-gap", 7), ("two-days", 8), ("cut-short", 11), ("unreadable", 3), ("empty", 10)] {
        assert_eq!(agree(&read(name), 0, u32::MAX), [-number]);
    }
}
