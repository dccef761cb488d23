//! The generated pairs of records are of all kinds: equal, one within the other, with a record in
//! common at every depth, and with numbers that are not there.

use reference::common::common_of;
use reference::gen::logs::{any_log, log_or_faulty};
use reference::gen::pairs::pair;
use reference::gen::Rng;
use reference::log::{fault, opened, opens};

#[test]
fn pairs_are_of_all_kinds() {
    let mut rng = Rng::new(0xa21);
    // Equal; the first holds the second, and the other way round; neighbours, and others, of which
    // neither holds the other.
    let mut seen = [0; 5];
    let mut depths = [0; 64];
    for _ in 0..3000 {
        let log = any_log(&mut rng, 200);
        let [a, b] = pair(&mut rng, &log);
        if u64::from(a.max(b)) < opened(&log) {
            let answer = common_of(&log, [a, b]);
            let (apart, next) = (answer != a && answer != b, a.abs_diff(b) == 1);
            let kinds = [a == b, a < b && answer == a, b < a && answer == b, apart && next, apart && !next];
            seen.iter_mut().zip(kinds).for_each(|(seen, found)| *seen += usize::from(found));
            depths[log[opens(&log)[answer as usize]].depth()] += 1;
        }
    }
    assert!(seen.iter().all(|&count| count > 50) && depths.iter().all(|&count| count > 0), "{seen:?} {depths:?}");
}

/// Of a number that is not below the opened count: whether it is the next one, or would be below if
/// it had 12, 16, 24 or 31 bits; 2^32 - 1; or so much below 2^32 that with a sign it is a small one.
fn kinds(number: u32, count: u32) -> [bool; 7] {
    let cut = |bits: u32| number % (1 << bits) < count;
    [number == count, cut(12), cut(16), cut(24), cut(31), number == u32::MAX, u32::MAX - number < count]
}

#[test]
fn numbers_that_are_not_there_are_of_all_kinds() {
    let mut rng = Rng::new(0xa22);
    // As the first of two and as the second, the other being there or not.
    let mut seen = [[[0; 7]; 2]; 2];
    for _ in 0..6000 {
        let log = log_or_faulty(&mut rng, 100);
        let count = opened(&log) as u32;
        let both = pair(&mut rng, &log);
        for (place, &number) in both.iter().enumerate().filter(|(_, number)| **number >= count) {
            let other_there = usize::from(both[1 - place] < count);
            let seen = &mut seen[place][other_there];
            seen.iter_mut().zip(kinds(number, count)).for_each(|(seen, found)| *seen += usize::from(found));
        }
    }
    assert!(seen.iter().flatten().flatten().all(|&count| count > 10), "{seen:?}");
}

#[test]
fn logs_with_faults_have_numbers_there_and_not() {
    let mut rng = Rng::new(0xa23);
    let mut seen = [0; 2];
    for _ in 0..2000 {
        let log = log_or_faulty(&mut rng, 20);
        let [a, b] = pair(&mut rng, &log);
        if fault(&log).is_some() && !log.is_empty() {
            seen[usize::from(u64::from(a.max(b)) < opened(&log))] += 1;
        }
    }
    assert!(seen.iter().all(|&count| count > 50), "{seen:?}");
}
