//! L6, "Backwards through a run", sentence by sentence. What is due is worked out by hand,
//! or by putting x forwards. `crate::calls` are the reference's here and the library's in
//! `compare`, which has this file too.

use crate::calls::{backwards, plan, runs, summarise};
use reference::gen::raw::{
    blank, close, in_mode, log_d, run, run_length, run_of_fields, short, stamp_forwards as forwards, MODES, RANGE,
};

/// "±10^14"
const FAR: i64 = 100_000_000_000_000;

/// "for one level the way back multiplies by 3,186,588,639"
const BACK: i64 = 3_186_588_639;

/// Outer figures at the ends of both ranges, next to them and beyond all.
const FIGURES: [i64; 13] = [i64::MIN, i64::MIN + 1, -FAR - 1, -FAR, -1, 0, 1, 72, RANGE - 1, RANGE, FAR, FAR + 1, i64::MAX];

/// A number so many times over as a factor, modulo 2^32.
fn power(number: i64, times: u32) -> i64 {
    (0..times).fold(1, |product, _| forwards(number, 0, product))
}

/// y less q modulo 2^32.
fn less(y: i64, q: i64) -> i64 {
    (y - q).rem_euclid(RANGE)
}

/// The numbers of log D's runs: "(12,0,0)", "(15,7,15)", "(12,12,7,11)", "(961,72,0)".
fn of_d(mode: u16) -> Vec<i64> {
    in_mode(mode, [&[12, 0, 0][..], &[15, 7, 15], &[12, 12, 7, 11], &[961, 72, 0]]).to_vec()
}

/// Log D's run of a mode with another number in a place.
fn with(mode: u16, place: usize, number: i64) -> Vec<u8> {
    let mut numbers = of_d(mode);
    numbers[place] = number;
    // So that the other end is out of the way.
    match (mode, place) {
        (5, 2) => numbers[3] = FAR,
        (5, 3) => numbers[2] = -FAR,
        _ => {}
    }
    run(mode, &numbers)
}

/// Whether bytes are a run: 15 or not, which is the same whatever y is. In modes 2 and 5
/// every y then gets 16; in modes 1 and 4 those get 17 that are out of the range.
fn is_run(bytes: &[u8]) -> bool {
    let is_run = backwards(bytes, 0) != Err(15);
    for y in FIGURES {
        let answer = backwards(bytes, y);
        let due = match (is_run, bytes.get(4)) {
            (false, _) => Some(15),
            (true, Some(1)) => (y.abs_diff(0) > FAR as u64).then_some(17),
            (true, Some(4)) => (!(0..RANGE).contains(&y)).then_some(17),
            _ => Some(16),
        };
        assert_eq!(answer.err(), due, "y = {y}: {bytes:?}");
    }
    is_run
}

/// The run of a log cut in two, of one line.
fn only_run(left: &[u8], right: &[u8], mode: u16) -> Vec<u8> {
    let row: Vec<u8> = [left, right].iter().flat_map(|chunk| summarise(chunk, mode.into(), 1788).expect("readable")).collect();
    runs(&row, run_length(mode)).expect("one run")
}

#[test]
fn thirty_one_times_3_186_588_639_is_1() {
    // 23 × 2^32 is 98,784,247,808.
    assert_eq!((31 * BACK, 23 * RANGE), (98_784_247_809, 98_784_247_808));
    assert_eq!(backwards(&run(4, &[31, 0, 0]), 1), Ok(3_186_588_639));
    assert_eq!(backwards(&run(4, &[BACK, 0, 0]), 1), Ok(31));
}

#[test]
fn for_one_level_the_way_back_multiplies_by_3_186_588_639() {
    for q in [0, 1, 30, 31, 32, 72, 1 << 31, RANGE - 1] {
        for y in [0, 1, 2, 31, 72, 961, 65_536, (1 << 31) - 1, 1 << 31, RANGE - 2, RANGE - 1] {
            assert_eq!(backwards(&run(4, &[31, q, 0]), y), Ok(forwards(BACK, 0, less(y, q))), "y = {y}, q = {q}");
        }
    }
}

#[test]
fn each_level_of_a_log_is_gone_back_through() {
    // So many records of one gram, each in the one before: 31 times, and 1, for each level.
    for levels in 1..=64 {
        let down: Vec<u8> = (0..levels).flat_map(|depth| short(depth, 1)).collect();
        let up: Vec<u8> = (0..levels).rev().flat_map(close).collect();
        let run = only_run(&down, &up, 4);
        for y in [0, 1, 32, 1_000, RANGE - 1] {
            let x = (0..levels).fold(y, |figure, _| forwards(BACK, 0, less(figure, 1)));
            assert_eq!(backwards(&run, y), Ok(x), "{levels} levels, y = {y}");
        }
        // In mode 1 they are so many grams.
        assert_eq!(backwards(&only_run(&down, &up, 1), 0), Ok(-i64::from(levels)));
    }
}

#[test]
fn log_d_backwards() {
    let (left, right) = (log_d()[..2].concat(), log_d()[2..].concat());
    for mode in MODES {
        assert_eq!(only_run(&left, &right, mode), run(mode, &of_d(mode)));
    }
    // x + 12.
    for (y, x) in [(12, 0), (0, -12), (-5, -17), (15, 3), (FAR, 99_999_999_999_988), (-FAR, -100_000_000_000_012)] {
        assert_eq!(backwards(&run(1, &[12, 0, 0]), y), Ok(x));
    }
    // 961·x + 72: of 0, 1, 2 and 1,000, and of -1, which is 2^32 - 1.
    for (y, x) in [(72, 0), (1033, 1), (1994, 2), (961_072, 1000), (RANGE - 889, RANGE - 1)] {
        assert_eq!(backwards(&run(4, &[961, 72, 0]), y), Ok(x));
    }
    // Two levels: the factor of one, twice.
    assert_eq!(backwards(&run(4, &[961, 72, 0]), 0), Ok(forwards(power(BACK, 2), 0, RANGE - 72)));
    for y in FIGURES {
        assert_eq!(backwards(&run(2, &[15, 7, 15]), y), Err(16));
        assert_eq!(backwards(&run(5, &[12, 12, 7, 11]), y), Err(16));
        // Document 01's run of mode 3, which is out of use.
        assert_eq!(backwards(&run_of_fields([30, 20, 3], &[15, 10, 14]), y), Err(15));
    }
}

#[test]
fn net_is_a_less() {
    let figures = [-FAR, -FAR + 1, -1_000_000_000, -13, -1, 0, 1, 12, RANGE, FAR - 1, FAR];
    for a in figures {
        for y in figures {
            assert_eq!(backwards(&run(1, &[a, 0, 0]), y), Ok(y - a));
        }
    }
    // As far as x can be.
    assert_eq!(backwards(&run(1, &[-FAR, 0, 0]), FAR), Ok(200_000_000_000_000));
    assert_eq!(backwards(&run(1, &[FAR, 0, 0]), -FAR), Ok(-200_000_000_000_000));
}

/// Odd multipliers: small ones, those of 1, 2, 63 and 64 levels, the factor back, one with
/// every second bit, and the ends of the upper half.
fn multipliers() -> Vec<i64> {
    let of_levels = [1, 2, 63, 64].map(|levels| power(31, levels));
    let others = [1, 3, 33, BACK, 0x5555_5555, 0xaaaa_aaab, (1 << 31) - 1, (1 << 31) + 1, RANGE - 31, RANGE - 1];
    [&of_levels[..], &others].concat()
}

#[test]
fn there_and_back_by_every_multiplier() {
    for m in multipliers() {
        for q in [0, 1, 72, 1 << 31, RANGE - 1] {
            let run = run(4, &[m, q, 0]);
            for x in [0, 1, 2, 3, 31, 72, 0xffff, 0x10000, (1 << 31) - 1, 1 << 31, 0x8000_0001, RANGE - 2, RANGE - 1] {
                assert_eq!(backwards(&run, forwards(m, q, x)), Ok(x), "m = {m}, q = {q}");
                let back = backwards(&run, x).expect("a figure in range");
                assert!((0..RANGE).contains(&back), "m = {m}, q = {q}: {back}");
                assert_eq!(forwards(m, q, back), x, "m = {m}, q = {q}");
            }
        }
    }
}

#[test]
fn stamps_by_hand() {
    // 1: q is taken off. 2^32 - 1, which is -1: from q taken off. Never below 0.
    for (m, q, y, x) in [
        (1, 0, 5, 5),
        (1, 1, 0, 4_294_967_295),
        (1, 7, 4_294_967_295, 4_294_967_288),
        (4_294_967_295, 0, 1, 4_294_967_295),
        (4_294_967_295, 9, 2, 7),
        (4_294_967_295, 2, 9, 4_294_967_289),
        // 3 × 2,863,311,531 is 2 × 2^32 + 1.
        (3, 0, 1, 2_863_311_531),
        (3, 1, 0, 1_431_655_765),
        // (2^31 + 1)^2 is 2^62 + 2^32 + 1.
        (2_147_483_649, 0, 1, 2_147_483_649),
        (2_147_483_649, 0, 2, 2),
    ] {
        assert_eq!(backwards(&run(4, &[m, q, 0]), y), Ok(x), "m = {m}, q = {q}, y = {y}");
    }
}

#[test]
fn sixty_three_and_sixty_four_levels() {
    for levels in [63, 64] {
        let m = power(31, levels);
        for (q, y) in [(0, 1), (0, RANGE - 1), (72, 0), (RANGE - 1, 12)] {
            assert_eq!(backwards(&run(4, &[m, q, 0]), y), Ok(forwards(power(BACK, levels), 0, less(y, q))));
        }
    }
    // 31^2 is 1 + 15 × 2^6, and five more squarings double what is above 1: 31^64 is an odd
    // multiple of 2^11 above it.
    assert_eq!(power(31, 64) % 4096, 1 + 2048);
}

#[test]
fn y_at_the_ends_of_its_range() {
    let net = run(1, &[12, 0, 0]);
    for (y, due) in [
        (FAR, Ok(FAR - 12)),
        (FAR + 1, Err(17)),
        (-FAR, Ok(-FAR - 12)),
        (-FAR - 1, Err(17)),
        (i64::MIN, Err(17)),
        (i64::MAX, Err(17)),
        // The other mode's ends are no ends here.
        (-1, Ok(-13)),
        (RANGE, Ok(RANGE - 12)),
    ] {
        assert_eq!(backwards(&net, y), due);
    }
    let stamp = run(4, &[1, 0, 0]);
    for (y, due) in [
        (0, Ok(0)),
        (-1, Err(17)),
        (RANGE - 1, Ok(RANGE - 1)),
        (RANGE, Err(17)),
        (-RANGE, Err(17)),
        (FAR, Err(17)),
        (-FAR, Err(17)),
        (i64::MIN, Err(17)),
        (i64::MAX, Err(17)),
    ] {
        assert_eq!(backwards(&stamp, y), due);
    }
}

#[test]
fn each_bit_of_y() {
    for bit in 0..64 {
        let y = 1i64 << bit;
        // 2^46 is 70,368,744,177,664; 2^47 is more than 10^14, and 2^63 is -2^63 here.
        assert_eq!(backwards(&run(1, &[1, 0, 0]), y), if bit <= 46 { Ok(y - 1) } else { Err(17) });
        assert_eq!(backwards(&run(4, &[1, 0, 0]), y), if bit <= 31 { Ok(y) } else { Err(17) });
        assert_eq!(backwards(&run(2, &[0, 0, 0]), y), Err(16));
        assert_eq!(backwards(&run(5, &[0, 0, 0, 0]), y), Err(16));
    }
}

/// The places of a mode's numbers that are held to ±10^14.
fn grams(mode: u16) -> &'static [usize] {
    in_mode(mode, [&[0][..], &[0, 1, 2], &[0, 1, 2, 3], &[]])
}

#[test]
fn numbers_at_10_14_and_one_beyond() {
    for mode in MODES {
        for &place in grams(mode) {
            for number in [FAR, -FAR, FAR - 1, -FAR + 1, 0, 1, -1, RANGE] {
                assert!(is_run(&with(mode, place, number)), "mode {mode}, place {place}: {number}");
            }
            for number in [FAR + 1, -FAR - 1, 2 * FAR, i64::MAX, i64::MIN + 1] {
                assert!(!is_run(&with(mode, place, number)), "mode {mode}, place {place}: {number}");
            }
        }
    }
}

#[test]
fn minus_2_63_is_allowed_for_the_second_number_of_mode_2_alone() {
    for mode in MODES {
        for place in 0..of_d(mode).len() {
            assert_eq!(is_run(&with(mode, place, i64::MIN)), (mode, place) == (2, 1), "mode {mode}, place {place}");
        }
    }
    // Beside it the others are judged as ever.
    assert!(is_run(&run(2, &[FAR, i64::MIN, -FAR])));
    assert!(!is_run(&run(2, &[FAR + 1, i64::MIN, 0])));
    assert!(!is_run(&run(2, &[0, i64::MIN, -FAR - 1])));
}

#[test]
fn each_bit_of_each_number() {
    for mode in MODES {
        for place in 0..of_d(mode).len() {
            // The multiplier is 1 before, all others are 0.
            let before = i64::from((mode, place) == (4, 0));
            for bit in 0..64 {
                let taken = match (mode, place) {
                    (4, 0) => (1..=31).contains(&bit),
                    (4, 1) => bit <= 31,
                    (4, _) | (1, 1..) => false,
                    (2, 1) => bit <= 46 || bit == 63,
                    _ => bit <= 46,
                };
                assert_eq!(is_run(&with(mode, place, before ^ (1 << bit))), taken, "mode {mode}, place {place}, bit {bit}");
            }
        }
    }
}

#[test]
fn stamps_from_0_to_2_32_less_1() {
    for q in [0, 1, 2, RANGE - 2, RANGE - 1] {
        assert!(is_run(&with(4, 1, q)), "{q}");
    }
    for m in [1, 3, 31, RANGE - 3, RANGE - 1] {
        assert!(is_run(&with(4, 0, m)), "{m}");
    }
    for number in [-1, -31, RANGE, RANGE + 1, -RANGE + 1, FAR, FAR + 1, i64::MAX, i64::MIN, i64::MIN + 1] {
        assert!(!is_run(&with(4, 0, number)), "{number}");
        assert!(!is_run(&with(4, 1, number)), "{number}");
    }
}

#[test]
fn an_even_multiplier() {
    for m in multipliers() {
        assert!(is_run(&with(4, 0, m)), "{m}");
        assert!(!is_run(&with(4, 0, m - 1)), "{m} - 1");
    }
    for m in [0, 2, 30, 32, 962, 1 << 31, RANGE - 2] {
        assert!(!is_run(&with(4, 0, m)), "{m}");
    }
    // q may be even, and a of mode 1.
    assert!(is_run(&run(4, &[1, 2, 0])) && is_run(&run(1, &[2, 0, 0])));
}

#[test]
fn unused_numbers_are_0() {
    for (mode, place) in [(1, 1), (1, 2), (4, 2)] {
        assert!(is_run(&with(mode, place, 0)));
        for number in [1, -1, 31, RANGE, FAR, -FAR, i64::MAX, i64::MIN] {
            assert!(!is_run(&with(mode, place, number)), "mode {mode}, place {place}: {number}");
        }
    }
    // Two that would add to 0.
    assert!(!is_run(&run(1, &[12, 1, -1])));
}

#[test]
fn l_is_not_above_h() {
    for h in [-FAR + 1, -1, 0, 1, 7, FAR - 1] {
        assert!(is_run(&run(5, &[0, 0, h, h])));
        assert!(is_run(&run(5, &[0, 0, h - 1, h])));
        assert!(!is_run(&run(5, &[0, 0, h + 1, h])));
    }
    assert!(is_run(&run(5, &[0, 0, -FAR, FAR])));
    assert!(!is_run(&run(5, &[0, 0, FAR, -FAR])));
    assert!(is_run(&run(5, &[0, 0, FAR, FAR])) && is_run(&run(5, &[0, 0, -FAR, -FAR])));
    // z and a lie where they like.
    for other in [-FAR, 6, 7, 9, 11, 12, FAR] {
        assert!(is_run(&run(5, &[other, -other, 7, 11])));
    }
    // The numbers of mode 2 are in no order.
    assert!(is_run(&run(2, &[0, 9, 3])) && is_run(&run(2, &[0, 3, 9])));
}

#[test]
fn slices_of_every_length() {
    for mode in MODES {
        // Zeros follow, so that no number is wrong.
        let longer = [run(mode, &of_d(mode)), vec![0; 60]].concat();
        for length in 0..longer.len() {
            let mut bytes = longer[..length].to_vec();
            assert_eq!(is_run(&bytes), length == run_length(mode), "mode {mode}, {length} bytes");
            // The same where the head says as many bytes as there are.
            if length >= 2 {
                bytes[0] = length as u8;
                assert_eq!(is_run(&bytes), length == run_length(mode), "mode {mode}, {length} bytes");
            }
        }
    }
}

/// 6 bytes of a head, and three numbers or four that are as good in one mode as in another.
fn with_head(head: [u16; 3], count: usize) -> Vec<u8> {
    run_of_fields(head, &[1, 0, 0, 0][..count])
}

#[test]
fn every_length_field() {
    for length in 0..=u16::MAX {
        for count in [3, 4] {
            for mode in MODES {
                let taken = (length, count) == if mode == 5 { (38, 4) } else { (30, 3) };
                let answer = backwards(&with_head([length, 20, mode], count), 0);
                assert_eq!(answer != Err(15), taken, "length {length}, mode {mode}, {count} numbers");
            }
        }
    }
}

#[test]
fn every_kind() {
    for kind in 0..=u16::MAX {
        for mode in MODES {
            let length = run_length(mode);
            let answer = backwards(&with_head([length as u16, kind, mode], (length - 6) / 8), 0);
            assert_eq!(answer != Err(15), kind == 20, "kind {kind}, mode {mode}");
        }
    }
}

#[test]
fn every_mode() {
    for mode in 0..=u16::MAX {
        // x + 1 is 0 and 1·x + 0 is 0. Mode 3, 0, 6, 257 and 65,535 are among the others.
        let three = in_use(mode, [Ok(-1), Err(16), Err(15), Ok(0)]);
        assert_eq!(backwards(&with_head([30, 20, mode], 3), 0), three, "mode {mode}");
        let four = in_use(mode, [Err(15), Err(15), Err(16), Err(15)]);
        assert_eq!(backwards(&with_head([38, 20, mode], 4), 0), four, "mode {mode}");
    }
}

/// What is due in a mode, of four; 15 where it is out of use.
fn in_use(mode: u16, due: [Result<i64, u8>; 4]) -> Result<i64, u8> {
    if MODES.contains(&mode) {
        in_mode(mode, due)
    } else {
        Err(15)
    }
}

#[test]
fn other_bytes_are_no_run() {
    for mode in MODES {
        let (left, right) = (log_d()[..2].concat(), log_d()[2..].concat());
        let [left, right] = [left, right].map(|chunk| summarise(&chunk, mode.into(), 1788).expect("readable"));
        let line = plan(&[&left[..], &right].concat(), 12).expect("one line");
        let good = run(mode, &of_d(mode));
        for bytes in [left, right, line, blank(mode), log_d().concat(), good.repeat(2), vec![], vec![0; 30], vec![0xff; 38]] {
            assert!(!is_run(&bytes), "mode {mode}: {bytes:?}");
        }
        assert!(is_run(&good));
    }
}

#[test]
fn fifteen_before_sixteen_before_seventeen() {
    for y in [i64::MIN, -FAR - 1, FAR + 1, i64::MAX] {
        // Nothing wrong but y; in modes 2 and 5 the mode comes before it.
        let due = [Err(17), Err(16), Err(16), Err(17)];
        for mode in MODES {
            assert_eq!(backwards(&run(mode, &of_d(mode)), y), in_mode(mode, due));
            // A wrong length, kind, mode or number comes before both.
            let length = run_length(mode) as u16;
            for head in [[length + 1, 20, mode], [length, 19, mode], [length, 20, mode + 256], [length, 20, 3]] {
                assert_eq!(backwards(&run_of_fields(head, &of_d(mode)), y), Err(15));
            }
            assert_eq!(backwards(&with(mode, 0, FAR + 1), y), Err(15));
        }
        assert_eq!(backwards(&run(5, &[12, 12, 11, 7]), y), Err(15));
        assert_eq!(backwards(&run(4, &[960, 72, 0]), y), Err(15));
        assert_eq!(backwards(&run(1, &[12, 0, 1]), y), Err(15));
        // All at once: mode 2 with the length of mode 5, the wrong kind and numbers beyond.
        assert_eq!(backwards(&run_of_fields([38, 19, 2], &[i64::MIN, i64::MIN, i64::MIN]), y), Err(15));
    }
}
