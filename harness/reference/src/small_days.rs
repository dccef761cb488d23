//! Document 02, L5, "All small days": every well-formed log with n opened records.
//!
//! Nothing here knows how such a log is built. All sequences of opens and closes are made,
//! the questions of a log are put to each, and those that get a "yes" are sorted.

use crate::log::{fault, opened};
use crate::record::{encode_all_short, Open, Record, DEFAULT_CEILING, DEFAULT_FLOOR};
use std::cmp::Ordering;

/// "14, before all else, when n is outside 1 to 8"
pub fn question_14(n: u32) -> Result<u32, u8> {
    if (1..=8).contains(&n) {
        Ok(n)
    } else {
        Err(14)
    }
}

/// "write all well-formed logs with n opened records": these logs, in their order.
///
/// A log begins and ends at level 0, so it closes as many records as it opens, and has no
/// more than 2n.
pub fn all_logs(n: u32) -> Vec<Vec<Record>> {
    let mut logs: Vec<Vec<Record>> = (1..=2 * n)
        .flat_map(|length| (0..1 << length).filter_map(move |choice| sequence(choice, length)))
        .filter(|records| fault(records).is_none() && opened(records) == u64::from(n))
        .collect();
    logs.sort_by(|one, other| order(one, other));
    // "Each log is there just once"
    assert!(logs.windows(2).all(|pair| pair[0] != pair[1]));
    logs
}

/// The sequence of so many records that the bits of a number choose, the lowest bit the
/// first: 0 an open, 1 a close, each at the level where the one before it ended. A close
/// at level 0 would have no depth: there is no such sequence.
fn sequence(choice: u32, length: u32) -> Option<Vec<Record>> {
    let mut level: usize = 0;
    let mut records = Vec::new();
    for place in 0..length {
        if choice >> place & 1 == 0 {
            records.push(open_at(level));
            level += 1;
        } else {
            level = level.checked_sub(1)?;
            records.push(Record::Close { depth: level });
        }
    }
    Some(records)
}

/// "short open records, each value 1"
fn open_at(depth: usize) -> Record {
    Record::Open(Open { depth, value: 1, floor: DEFAULT_FLOOR, ceiling: DEFAULT_CEILING })
}

/// "Compare two record by record, an open before a close: that is the order."
fn order(one: &[Record], other: &[Record]) -> Ordering {
    match one.iter().zip(other).find(|(a, b)| a.is_open() != b.is_open()) {
        Some((first, _)) if first.is_open() => Ordering::Less,
        Some(_) => Ordering::Greater,
        None => Ordering::Equal,
    }
}

/// The bytes of logs, "one log after another", opens of length 10.
pub fn encode_logs(logs: &[Vec<Record>]) -> Vec<u8> {
    logs.iter().flat_map(|log| encode_all_short(log)).collect()
}
