//! Pages of a sheet: there, just past the end, and such that would be there if 60 times the page,
//! or the page itself, had fewer bits; and logs of a few pages.

use super::logs::{any_log, changed, log, Shape, VALUES};
use super::Rng;
use crate::record::{Open, Record, GRAMS};

/// A well-formed log, now and then a long one: in half of the cases with as many opened records
/// as fill one, two or three pages, or with one more or one fewer; in a quarter of them with values
/// of one sign, so that figures get long, and in another with values of all widths.
pub fn paged_log(rng: &mut Rng) -> Vec<Record> {
    let most = rng.pick(&[20, 200, 200, 200, 1200]);
    let log = if rng.one_in(2) { any_log(rng, most) } else { full_pages(rng) };
    match rng.below(8) {
        0 => changed(&log, |open| Open { value: open.value.abs(), ..open }),
        1 => changed(&log, |open| Open { value: -open.value.abs(), ..open }),
        2 | 3 => changed(&log, |open| Open { value: of_any_width(rng), ..open }),
        _ => log,
    }
}

/// A value of 1 to 10 digits, each as often, with either sign.
fn of_any_width(rng: &mut Rng) -> i64 {
    let least = 10i64.pow(rng.below(10) as u32);
    let value = rng.between(least, (10 * least - 1).min(GRAMS));
    rng.pick(&[value, -value])
}

/// A log that fills its pages, or nearly. Of these shapes one has exactly as many records as are
/// asked for.
fn full_pages(rng: &mut Rng) -> Vec<Record> {
    let shape = rng.pick(&[Shape::Flat, Shape::Bushy, Shape::Deep, Shape::Any]);
    let values = rng.pick(&VALUES);
    let full = rng.pick(&[60, 120, 180]);
    let opened = rng.pick(&[full - 1, full, full + 1]);
    log(rng, shape, values, opened)
}

/// A page for the sheet of so many opened records: in half of the cases one that there is.
pub fn page(rng: &mut Rng, opened: usize) -> u32 {
    let count = opened.div_ceil(60).max(1) as u32;
    let there = rng.below(count as usize) as u32;
    let any = rng.bits() as u32;
    match rng.below(12) {
        0..=3 => there,
        4 | 5 => count - 1,
        6 => count,
        7 => count + 1,
        8 | 9 => there + wraps(1 + rng.below(59) as u64),
        10 => there + rng.pick(&[1 << 8, 1 << 14, 1 << 16, 1 << 31]),
        _ => rng.pick(&[any, u32::MAX, u32::MAX - there]),
    }
}

/// The first page whose 60 times is not below so many times 2^32, 1 to 59: modulo 2^32 that is a multiple of 4, 0 to 56.
pub fn wraps(times: u64) -> u32 {
    (times << 32).div_ceil(60) as u32
}
