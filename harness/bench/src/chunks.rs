//! The logs that are timed: whole ones, each nearly as long as a chunk may be.

use reference::gen::logs::{batch, open, Values};
use reference::gen::Rng;
use reference::record::{encode_close, encode_full, encode_short, encode_with_batch, records_of, Open};

/// "Is the chunk at most 65,536 bytes?"
const LONGEST: usize = 65_536;

/// Different ones of a kind.
pub const COUNT: usize = 48;

/// Which open records a log has: of 10 bytes, of 18, each of these by the toss of a coin, or of 22.
#[derive(Clone, Copy)]
pub enum Records {
    Short,
    Full,
    Mixed,
    Batch,
}

impl Records {
    /// In bytes.
    fn longest(self) -> usize {
        match self {
            Records::Short | Records::Full | Records::Mixed => 18,
            Records::Batch => 22,
        }
    }

    fn encode(self, rng: &mut Rng, opened: &Open) -> Vec<u8> {
        match self {
            Records::Short => encode_short(opened.depth, opened.value),
            Records::Mixed if rng.one_in(2) => encode_short(opened.depth, opened.value),
            Records::Full | Records::Mixed => encode_full(opened),
            Records::Batch => encode_with_batch(opened, batch(rng)),
        }
    }
}

/// Logs of one kind.
pub struct Case {
    pub name: String,
    pub logs: Vec<Vec<u8>>,
}

impl Case {
    /// Microseconds for a log as nanoseconds for a record, opens and closes alike.
    pub fn nanos_a_record(&self, micros: f64) -> f64 {
        let records: usize = self.logs.iter().map(|log| records_of(log).expect("readable").len()).sum();
        micros * 1e3 * self.logs.len() as f64 / records as f64
    }
}

/// All kinds: by the toss of a coin at three depths and with four kinds of records, and a farm's day.
pub fn cases() -> Vec<Case> {
    let mut cases = Vec::new();
    for deepest in [2, 5, 63] {
        for (name, records) in
            [("short", Records::Short), ("full", Records::Full), ("mixed", Records::Mixed), ("batch", Records::Batch)]
        {
            cases.push(Case { name: format!("depth {deepest}, {name}"), logs: many(|rng| random(rng, deepest, records)) });
        }
    }
    cases.push(Case { name: "farm day".to_string(), logs: many(farm_day) });
    cases
}

/// As many as there are of each kind, each from a seed of its own.
pub fn many<T>(mut draw: impl FnMut(&mut Rng) -> T) -> Vec<T> {
    (0..COUNT).map(|seed| draw(&mut Rng::new(seed as u64))).collect()
}

/// A well-formed log in which an open or a close comes by the toss of a coin, down to a depth.
pub fn random(rng: &mut Rng, deepest: usize, records: Records) -> Vec<u8> {
    let mut log = Vec::new();
    let mut level = 0;
    // Room for one more open, and for the closes of all that are then open.
    while log.len() + records.longest() + 6 * (level + 1) <= LONGEST {
        if level <= 1 || (level <= deepest && rng.one_in(2)) {
            let opened = open(rng, level, Values::Small);
            log.extend(records.encode(rng, &opened));
            level += 1;
        } else {
            level -= 1;
            log.extend(encode_close(level));
        }
    }
    for depth in (0..level).rev() {
        log.extend(encode_close(depth));
    }
    log
}

/// How many each holds, and its ceiling: a site of 4 raceways with 8 tanks each, and 6 meals of 19 drops in each tank.
const FARM: [(usize, i64); 4] = [(4, 1_000_000_000), (8, 100_000), (6, 12_000), (19, 2_000)];

/// A farm's day: always the same pattern, with other values. A drop is a short record, all others have a floor and a ceiling.
pub fn farm_day(rng: &mut Rng) -> Vec<u8> {
    let mut log = Vec::new();
    part_of_day(rng, 0, &mut log);
    log
}

fn part_of_day(rng: &mut Rng, depth: usize, log: &mut Vec<u8>) {
    if depth < FARM.len() {
        let (held, ceiling) = FARM[depth];
        log.extend(encode_full(&Open { depth, value: 0, floor: 0, ceiling }));
        for _ in 0..held {
            part_of_day(rng, depth + 1, log);
        }
    } else {
        log.extend(encode_short(depth, rng.between(60, 140)));
    }
    log.extend(encode_close(depth));
}

#[cfg(test)]
mod tests {
    use super::{cases, COUNT, LONGEST};
    use std::collections::HashSet;

    #[test]
    fn all_logs_are_different_and_nearly_fill_a_chunk() {
        for case in cases() {
            assert_eq!(case.logs.iter().collect::<HashSet<_>>().len(), COUNT, "{}", case.name);
            assert!(case.logs.iter().all(|log| (63_000..=LONGEST).contains(&log.len())), "{}", case.name);
        }
    }
}
