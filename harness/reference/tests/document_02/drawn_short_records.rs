//! The generated logs have short records on every side of their floor, the old floor at length
//! 18, and rows in which the age of a chunk makes a difference.

use reference::gen::logs::{any_log, cut, encode_mixed, encode_mostly_short, in_full, some_sent_before, OLD_FLOOR};
use reference::gen::Rng;
use reference::log::{held, opens};
use reference::mode::Mode;
use reference::record::{read_first, records_of, Record};
use reference::tree::{figure_by_holding, log_figure, open_at};
use std::collections::BTreeMap;

/// The length of each opened record, in log order.
fn lengths(mut chunk: &[u8]) -> Vec<usize> {
    let mut found = Vec::new();
    while let Some(first) = read_first(chunk) {
        if first.record.is_open() {
            found.push(first.length);
        }
        chunk = &chunk[first.length..];
    }
    found
}

/// Where the value of a record that holds others lies with what it holds: below 0, at 0, above.
/// Nothing for one that holds nothing.
fn side(log: &[Record], place: usize) -> Option<i64> {
    let held = held(log, place);
    let sum: i64 = held.iter().map(|&later| figure_by_holding(Mode::Eaten, log, later)).sum();
    (!held.is_empty()).then_some((open_at(log, place).value + sum).signum())
}

#[test]
fn short_and_full_records_lie_on_every_side_of_0() {
    let mut rng = Rng::new(0x821);
    // By floor, length and side, of those with the ceiling of the default.
    let mut seen = BTreeMap::new();
    for _ in 0..600 {
        let log = any_log(&mut rng, 40);
        let lengths = lengths(&encode_mixed(&mut rng, &log));
        for (place, length) in opens(&log).into_iter().zip(lengths) {
            let record = open_at(&log, place);
            if record.ceiling == 1_000_000_000 && [0, OLD_FLOOR].contains(&record.floor) {
                *seen.entry((record.floor, length, side(&log, place))).or_insert(0) += 1;
            }
        }
    }
    let sides = [None, Some(-1), Some(0), Some(1)];
    for (floor, length) in [(0, 10), (0, 18), (0, 22), (OLD_FLOOR, 18), (OLD_FLOOR, 22)] {
        for side in sides {
            let count = seen.get(&(floor, length, side)).copied().unwrap_or(0);
            // A sum of just 0 is the rarest.
            assert!(count > if side == Some(0) { 5 } else { 100 }, "{floor} {length} {side:?}: {seen:?}");
        }
    }
    // The old floor is not that of length 10.
    assert!(seen.keys().all(|&(floor, length, _)| floor == 0 || length != 10), "{seen:?}");
}

#[test]
fn short_records_in_full_are_otherwise_the_same() {
    let mut rng = Rng::new(0x822);
    for _ in 0..300 {
        let log = any_log(&mut rng, 30);
        let chunk = encode_mixed(&mut rng, &log);
        let before = in_full(&chunk, OLD_FLOOR);
        let read = records_of(&before).expect("readable records");
        for (place, length) in opens(&log).into_iter().zip(lengths(&chunk)) {
            let (now, then) = (open_at(&log, place), open_at(&read, place));
            let floor = if length == 10 { OLD_FLOOR } else { now.floor };
            assert_eq!((then.depth, then.value, then.floor, then.ceiling), (now.depth, now.value, floor, now.ceiling));
        }
        assert!(lengths(&before).iter().all(|&length| length > 10));
        assert_eq!(in_full(&before, 0), before);
        // What is left of the last close, which is not readable, stays.
        let torn = &chunk[..chunk.len() - 1];
        assert!(in_full(torn, OLD_FLOOR).ends_with(&torn[torn.len() - 5..]));
    }
}

#[test]
fn the_age_of_a_chunk_makes_a_difference() {
    let mut rng = Rng::new(0x823);
    // The same as all new, as all old, as both, and as neither.
    let mut seen = [0; 4];
    for _ in 0..1500 {
        let log = any_log(&mut rng, 40);
        let count = 2 + rng.below(6);
        let chunks = cut(&mut rng, &log, count);
        let chunks = encode_mostly_short(&mut rng, &chunks);
        let eaten = |chunk: &[u8]| log_figure(Mode::Eaten, &records_of(chunk).expect("readable records"));
        let figure = eaten(&some_sent_before(&mut rng, &chunks).concat());
        let [new, old] = [0, OLD_FLOOR].map(|floor| eaten(&in_full(&chunks.concat(), floor)) == figure);
        seen[match (new, old) {
            (true, false) => 0,
            (false, true) => 1,
            (true, true) => 2,
            (false, false) => 3,
        }] += 1;
    }
    assert!(seen.iter().all(|&count| count > 60), "{seen:?}");
}
