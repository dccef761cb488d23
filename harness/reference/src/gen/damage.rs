//! Damaged bytes: a record, chunk, summary or row with something wrong in it, or
//! perhaps not.

use super::logs::{batch, open, VALUES};
use super::Rng;
use crate::bytes::put;
use crate::record::{encode_close, encode_full, encode_short, encode_with_batch};

/// Numbers that are an end of some range, or next to one.
const EDGES: [i64; 37] = [
    0,
    1,
    2,
    3,
    4,
    5,
    6,
    7,
    8,
    9,
    10,
    16,
    17,
    18,
    19,
    21,
    22,
    23,
    24,
    63,
    64,
    65,
    -1,
    99_999,
    100_000,
    100_001,
    100_002,
    1_000_000_000,
    1_000_000_001,
    -1_000_000_000,
    -1_000_000_001,
    4_294_967_295,
    4_294_967_296,
    i32::MIN as i64,
    i32::MAX as i64,
    i64::MIN,
    i64::MAX,
];

/// The bytes with one thing changed.
pub fn damage(rng: &mut Rng, bytes: &[u8]) -> Vec<u8> {
    let mut out = bytes.to_vec();
    let place = rng.below(bytes.len() + 1);
    match rng.below(7) {
        // One bit.
        0 if place < out.len() => out[place] ^= 1 << rng.below(8),
        // Any byte.
        1 if place < out.len() => out[place] = rng.bits() as u8,
        // The end cut off.
        2 => out.truncate(place),
        // A byte more.
        3 => out.insert(place, rng.bits() as u8),
        // A byte fewer.
        4 if place < out.len() => {
            out.remove(place);
        }
        // A number from the edges.
        _ => overwrite(rng, &mut out, place),
    }
    out
}

/// Writes a number from the edges, 2, 4 or 8 bytes wide, over what is there.
fn overwrite(rng: &mut Rng, out: &mut [u8], place: usize) {
    let width = rng.pick(&[2, 2, 4, 8]);
    let mut number = Vec::new();
    put(&mut number, rng.pick(&EDGES), width);
    for (to, from) in out[place..].iter_mut().zip(number) {
        *to = from;
    }
}

/// A record alone, or nearly one: of each kind and length; once in four times with another
/// length in its head, and as often another kind; up to two bytes too short or too long.
pub fn nearly_a_record(rng: &mut Rng) -> Vec<u8> {
    let depth = rng.pick(&[0, 1, 62, 63, 64]);
    let values = rng.pick(&VALUES);
    let opened = open(rng, depth, values);
    let mut out = match rng.below(6) {
        0 => encode_close(depth),
        1 => encode_short(depth, opened.value),
        2 => encode_full(&opened),
        _ => encode_with_batch(&opened, batch(rng)),
    };
    if rng.one_in(4) {
        out[0] = rng.pick(&[6, 10, 18, 21, 22, 23]);
    }
    if rng.one_in(4) {
        out[2] = rng.pick(&[0, 1, 2, 3]);
    }
    out.resize(out.len() + rng.below(5) - 2, 0);
    out
}

/// Random bytes, up to a length.
pub fn noise(rng: &mut Rng, longest: usize) -> Vec<u8> {
    let length = rng.below(longest + 1);
    (0..length).map(|_| rng.bits() as u8).collect()
}
