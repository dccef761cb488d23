//! "Records", the second half: levels, faults, who closes whom, who holds whom.
//!
//! Closes and holders are searched for in the paper's words; nothing is kept along
//! the way.

use crate::record::Record;

/// "at most 100,000 records are opened"
pub const MOST_OPENED: u64 = 100_000;

/// Question 7: "Do neighbouring records meet at one level?"
///
/// "each record starts at the level where the one before it ended"
pub fn neighbours_meet(records: &[Record]) -> bool {
    records.windows(2).all(|pair| pair[0].end_level() == pair[1].start_level())
}

/// Question 8: "Is every level between records above 0?"
///
/// Two records that do not meet have no level between them; they have fault 7,
/// which is lower.
pub fn levels_between_above_0(records: &[Record]) -> bool {
    records.windows(2).filter(|pair| pair[0].end_level() == pair[1].start_level()).all(|pair| pair[0].end_level() > 0)
}

/// The number of records opened.
pub fn opened(records: &[Record]) -> u64 {
    records.iter().filter(|record| record.is_open()).count() as u64
}

/// Question 11: "Does the log begin and end at level 0?" Asked where there is a
/// record.
pub fn begins_and_ends_at_0(records: &[Record]) -> bool {
    records[0].start_level() == 0 && records[records.len() - 1].end_level() == 0
}

/// The lowest of the faults 7 to 9, those that a chunk can have.
pub fn chunk_fault(records: &[Record]) -> Option<u8> {
    if !neighbours_meet(records) {
        Some(7)
    } else if !levels_between_above_0(records) {
        Some(8)
    } else if opened(records) > MOST_OPENED {
        Some(9)
    } else {
        None
    }
}

/// "A log's lowest-numbered fault is the lowest of questions 7 to 11 below that
/// gets a 'no' for the uncut log." A log without one is well formed.
pub fn fault(records: &[Record]) -> Option<u8> {
    if let Some(fault) = chunk_fault(records) {
        Some(fault)
    } else if records.is_empty() {
        Some(10)
    } else if !begins_and_ends_at_0(records) {
        Some(11)
    } else {
        None
    }
}

/// The place of the record that closes the one opened at `place`.
///
/// "Where records meet in level, the first close at depth d after an open at depth
/// d closes it."
pub fn closer(records: &[Record], place: usize) -> Option<usize> {
    let depth = records[place].depth();
    (place + 1..records.len()).find(|&later| records[later] == Record::Close { depth })
}

/// The places of the records that the one opened at `place` directly holds, in log
/// order.
///
/// "The record directly holds those opened at depth d+1 between the two, or, if no
/// such close follows, after the open"
pub fn held(records: &[Record], place: usize) -> Vec<usize> {
    let depth = records[place].depth();
    let end = closer(records, place).unwrap_or(records.len());
    (place + 1..end).filter(|&later| records[later].is_open() && records[later].depth() == depth + 1).collect()
}

/// For each place, whether a record that these records open holds it.
pub fn held_by_some(records: &[Record]) -> Vec<bool> {
    let mut is_held = vec![false; records.len()];
    for place in opens(records) {
        for later in held(records, place) {
            is_held[later] = true;
        }
    }
    is_held
}

/// The places of the open records, in log order.
pub fn opens(records: &[Record]) -> Vec<usize> {
    (0..records.len()).filter(|&place| records[place].is_open()).collect()
}
