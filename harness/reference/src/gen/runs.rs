//! Runs that question 15 takes, bytes that are nearly one, and outer figures.

use super::raw::{nothing, run, run_length, run_of_fields, MODES};
use super::Rng;
use crate::backwards::FARTHEST;

const HIGHEST_STAMP: i64 = u32::MAX as i64;

/// Ends of the ranges of a run's numbers and of y, what lies next to them, and beyond all.
const EDGES: [i64; 16] = [
    0,
    1,
    2,
    -1,
    HIGHEST_STAMP - 1,
    HIGHEST_STAMP,
    HIGHEST_STAMP + 1,
    HIGHEST_STAMP + 2,
    FARTHEST,
    FARTHEST + 1,
    -FARTHEST,
    -FARTHEST - 1,
    i64::MIN,
    i64::MIN + 1,
    i64::MAX - 1,
    i64::MAX,
];

/// A number within ±10^14.
fn grams(rng: &mut Rng) -> i64 {
    let any = rng.between(-FARTHEST, FARTHEST);
    let small = rng.between(-100, 100);
    rng.pick(&[any, any, small, small, FARTHEST, -FARTHEST])
}

/// A number from 0 to 2^32 - 1.
fn stamp(rng: &mut Rng) -> i64 {
    let any = rng.between(0, HIGHEST_STAMP);
    let small = rng.between(0, 100);
    rng.pick(&[any, any, any, small, 0, HIGHEST_STAMP])
}

/// An odd number from 1 to 2^32 - 1: once in two times what so many levels make of 31.
fn multiplier(rng: &mut Rng) -> i64 {
    if rng.one_in(2) {
        return (0..1 + rng.below(64)).fold(1, |power, _| power * 31 % (HIGHEST_STAMP + 1));
    }
    stamp(rng) | 1
}

/// A figure that a run of a mode is asked about, inner or outer.
pub fn figure(rng: &mut Rng, mode: u16) -> i64 {
    if mode == 4 {
        stamp(rng)
    } else {
        grams(rng)
    }
}

/// Any y: one that is asked about in some mode, an edge, or any 64 bits.
pub fn any_y(rng: &mut Rng) -> i64 {
    let (grams, stamp, any) = (grams(rng), stamp(rng), rng.bits() as i64);
    let edge = rng.pick(&EDGES);
    rng.pick(&[grams, grams, stamp, stamp, edge, edge, any])
}

/// The numbers of a run of a mode; most runs that are taken are those of no join.
fn numbers(rng: &mut Rng, mode: u16) -> Vec<i64> {
    let [z, a, one, other] = [(); 4].map(|_| grams(rng));
    match mode {
        1 => vec![a, 0, 0],
        2 => vec![z, rng.pick(&[a, a, nothing(2)]), one],
        4 => vec![multiplier(rng), stamp(rng), 0],
        5 => vec![z, a, one.min(other), one.max(other)],
        _ => panic!("no mode {mode}"),
    }
}

/// A run of a mode that question 15 takes.
pub fn any_run(rng: &mut Rng, mode: u16) -> Vec<u8> {
    run(mode, &numbers(rng, mode))
}

/// Nearly a run: its numbers may be from the edges, its head of another length, kind or mode,
/// and up to two bytes too many or too few are there. Each goes wrong now and then, so that
/// several may at once, and none.
pub fn nearly_a_run(rng: &mut Rng) -> Vec<u8> {
    let mode = rng.pick(&MODES);
    let mut numbers = numbers(rng, mode);
    for number in &mut numbers {
        if rng.one_in(6) {
            *number = rng.pick(&EDGES);
        }
    }
    let length = run_length(mode) as u16;
    let mut head = [length, 20, mode];
    for (field, others) in head.iter_mut().zip([[length - 1, length + 1, 30, 38], [0, 18, 19, 21], [3, 0, 6, 256 + mode]]) {
        if rng.one_in(10) {
            let any = rng.bits() as u16;
            *field = if rng.one_in(4) { any } else { rng.pick(&others) };
        }
    }
    let mut out = run_of_fields(head, &numbers);
    if rng.one_in(10) {
        out.resize(out.len() + rng.below(5) - 2, 0);
        // Now and then the head says as many bytes as there are.
        if rng.one_in(2) {
            out[0] = out.len() as u8;
        }
    }
    out
}
