//! Pairs of record numbers: both there, with a record in common at any depth; and such of which one
//! or both are not below the opened count, some of them for their high bits alone.

use super::Rng;
use crate::record::Record;

/// Two numbers for a log, which may have a fault: in a quarter of the cases one of them is not
/// below the opened count, or both.
pub fn pair(rng: &mut Rng, log: &[Record]) -> [u32; 2] {
    let depths: Vec<usize> = log.iter().filter(|record| record.is_open()).map(Record::depth).collect();
    let [a, b] = if depths.is_empty() { [0, 0] } else { both_there(rng, &depths) };
    let count = depths.len();
    let pair = match rng.below(12) {
        0 | 1 => [a as u32, not_there(rng, count)],
        2 => [not_there(rng, count), not_there(rng, count)],
        _ => [a as u32, b as u32],
    };
    if rng.one_in(2) {
        [pair[1], pair[0]]
    } else {
        pair
    }
}

/// Two numbers of a log whose opened records have these depths: one twice, one and the next, any two,
/// one and a record that holds it, or two that one record holds.
fn both_there(rng: &mut Rng, depths: &[usize]) -> [usize; 2] {
    let number = rng.below(depths.len());
    let upper = upper(rng, depths, number);
    let other = match rng.below(9) {
        0 => number,
        1 => (number + 1).min(depths.len() - 1),
        2 | 3 => rng.below(depths.len()),
        4 => upper,
        _ => upper + rng.below(end(depths, upper) - upper),
    };
    [number, other]
}

/// Some steps up from a record: each goes to the last one before that is one depth less deep, which
/// holds it where records meet in level.
fn upper(rng: &mut Rng, depths: &[usize], number: usize) -> usize {
    let steps = rng.below(depths[number] + 1);
    let step = |at: usize| depths[..at].iter().rposition(|depth| depth + 1 == depths[at]);
    (0..steps).fold(number, |at, _| step(at).unwrap_or(at))
}

/// The number after those of a record and all that it holds.
fn end(depths: &[usize], number: usize) -> usize {
    let first = number + 1;
    depths[first..].iter().position(|depth| *depth <= depths[number]).map_or(depths.len(), |count| first + count)
}

/// A number that is not below a count of at most 4,096: next to it, and such as are below it in
/// their low 12, 16, 24 or 31 bits.
fn not_there(rng: &mut Rng, count: usize) -> u32 {
    let (first, there) = (count as u32, rng.below(count.max(1)) as u32);
    let any = rng.bits() as u32 | 1 << 31;
    match rng.below(4) {
        0 => first,
        1 => first + 1 + rng.below(3) as u32,
        2 => there + rng.pick(&[1 << 12, 1 << 16, 1 << 24, 1 << 31]),
        _ => rng.pick(&[u32::MAX, u32::MAX - there, any]),
    }
}
