//! Document 02, L6, "Backwards through a run": from the bytes of a run and an outer figure
//! y "the one inner figure x that leads to it".
//!
//! No inverse of a multiplier is known here. In mode 4 x is found bit by bit, by putting
//! what is found of it through the run.

use crate::bytes::{signed, unsigned};
use crate::mode::{loaded, Mode};
use crate::run::{put_through, Run};

/// "beyond ±10^14"
pub const FARTHEST: i64 = 100_000_000_000_000;

fn within(number: i64) -> bool {
    (-FARTHEST..=FARTHEST).contains(&number)
}

/// "0 to 2^32 - 1"
fn is_stamp(number: i64) -> bool {
    (0..1 << 32).contains(&number)
}

/// "15 first, when the bytes are no run": the run that they are.
pub fn question_15(bytes: &[u8]) -> Result<Run, u8> {
    read_run(bytes).ok_or(15)
}

/// Length, kind and mode, then the numbers.
fn read_run(bytes: &[u8]) -> Option<Run> {
    if bytes.len() < 6 {
        return None;
    }
    // "a mode out of use"
    let mode = Mode::from_number(unsigned(&bytes[4..6]) as u32)?;
    // "layout": "length 30, kind 20", and in mode 5 "length 38".
    let length = if mode == Mode::Eaten { 38 } else { 30 };
    if bytes.len() != length || unsigned(&bytes[0..2]) != length as u64 || unsigned(&bytes[2..4]) != 20 {
        return None;
    }
    let numbers: Vec<i64> = bytes[6..length].chunks(8).map(signed).collect();
    run_with(mode, &numbers)
}

/// The run of a mode with these numbers: three, in mode 5 four.
fn run_with(mode: Mode, numbers: &[i64]) -> Option<Run> {
    match (mode, numbers) {
        // "unused numbers not 0", "a number beyond ±10^14"
        (Mode::Net, &[a, second, third]) => (second == 0 && third == 0 && within(a)).then_some(Run::Net { a }),
        // ".. that is not the -2^63 allowed for A in mode 2", which is nothing.
        (Mode::Heaviest, &[z, a, b]) => {
            let a = loaded(mode, a);
            (within(z) && a.is_none_or(within) && within(b)).then_some(Run::Heaviest { z, a, b })
        }
        // "or l above h"
        (Mode::Eaten, &[z, a, l, h]) => {
            (within(z) && within(a) && within(l) && within(h) && l <= h).then_some(Run::Eaten { z, a, l, h })
        }
        // "a mode 4 number outside 0 to 2^32 - 1, an even multiplier, unused numbers not 0"
        (Mode::Stamp, &[m, q, third]) => (is_stamp(m) && is_stamp(q) && m % 2 != 0 && third == 0).then_some(Run::Stamp { m, q }),
        _ => None,
    }
}

/// "16 next, for modes 2 and 5"
pub fn question_16(run: &Run) -> Result<(), u8> {
    match run {
        Run::Heaviest { .. } | Run::Eaten { .. } => Err(16),
        Run::Net { .. } | Run::Stamp { .. } => Ok(()),
    }
}

/// "17 last, when y is beyond ±10^14 in mode 1 or outside 0 to 2^32 - 1 in mode 4"
pub fn question_17(run: &Run, y: i64) -> Result<(), u8> {
    let fits = if let Run::Stamp { .. } = run { is_stamp(y) } else { within(y) };
    if fits {
        Ok(())
    } else {
        Err(17)
    }
}

/// "the one inner figure x that leads to it": "in mode 1 among whole numbers, in mode 4
/// among 0 to 2^32 - 1".
pub fn inner(run: &Run, y: i64) -> i64 {
    match run {
        Run::Net { a } => (i128::from(y) - i128::from(*a)) as i64,
        Run::Stamp { .. } => bit_by_bit(run, y),
        _ => panic!("modes 2 and 5 have no way back"),
    }
}

/// x of mode 4, its lowest bit first. "There the multiplier is odd": bit k of x changes bit k
/// of m·x + q and none below it, so that it is 1 just where bit k is not y's without it.
fn bit_by_bit(run: &Run, y: i64) -> i64 {
    (0..32).fold(0, |x, bit| {
        let differs = put_through(run, Some(x)) ^ y;
        x | (differs & (1 << bit))
    })
}
