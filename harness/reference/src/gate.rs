//! "The questions at the gate": each as one function, that gives what the later ones
//! need or the number of the refusal.
//!
//! Of 7 to 11 the lowest "no" is asked for in one go: of a log in [`crate::log`], of
//! one summary in [`crate::summary`], of a row in [`crate::row`].

use crate::layout::decode;
use crate::log;
use crate::mode::Mode;
use crate::record::{records_of, Record};
use crate::row;
use crate::summary::Summary;

/// "Is the chunk at most 65,536 bytes?"
pub const LONGEST_CHUNK: usize = 65_536;

/// "1. Is the mode 1 to 4?" Document 02, L3: 5 is a mode too, and "mode 3 gets 1 as an
/// argument".
pub fn question_1(mode: u32) -> Result<Mode, u8> {
    Mode::from_number(mode).ok_or(1)
}

/// "2. Is the chunk at most 65,536 bytes?"
pub fn question_2(chunk: &[u8]) -> Result<(), u8> {
    if chunk.len() <= LONGEST_CHUNK {
        Ok(())
    } else {
        Err(2)
    }
}

/// "3. Is every record readable?"
pub fn question_3(chunk: &[u8]) -> Result<Vec<Record>, u8> {
    records_of(chunk).ok_or(3)
}

/// "4. Are there 2 to 64 pieces (each call on a row)?"
pub fn question_4(row: &[u8]) -> Result<Vec<&[u8]>, u8> {
    let pieces = row::pieces(row);
    if (2..=64).contains(&pieces.len()) {
        Ok(pieces)
    } else {
        Err(4)
    }
}

/// "5. Is each given piece exactly one summary?"
pub fn question_5(pieces: &[&[u8]]) -> Result<Vec<Summary>, u8> {
    pieces.iter().map(|piece| decode(piece).ok_or(5)).collect()
}

/// "6. Are all of one mode?"
pub fn question_6(summaries: &[Summary]) -> Result<(), u8> {
    if summaries.iter().all(|summary| summary.mode == summaries[0].mode) {
        Ok(())
    } else {
        Err(6)
    }
}

/// Questions 7 to 11 of a whole log.
pub fn questions_7_to_11_of_log(records: &[Record]) -> Result<(), u8> {
    match log::fault(records) {
        None => Ok(()),
        Some(fault) => Err(fault),
    }
}

/// Questions 7 to 11 of a row.
pub fn questions_7_to_11_of_row(summaries: &[Summary]) -> Result<(), u8> {
    match row::fault(summaries) {
        None => Ok(()),
        Some(fault) => Err(fault),
    }
}

/// "12. Does the result fit the lent buffer?"
pub fn question_12(result: Vec<u8>, capacity: usize) -> Result<Vec<u8>, u8> {
    if result.len() <= capacity {
        Ok(result)
    } else {
        Err(12)
    }
}
