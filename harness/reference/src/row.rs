//! "Plan and runs", the end: a row of summaries, how it is cut and merged, and the
//! faults 7 to 11 of the log that it stands for.

use crate::bytes::unsigned;
use crate::log::MOST_OPENED;
use crate::merge::merge;
use crate::summary::{Case, Summary};

/// "A row is lent as one slice, its summaries end to end, cut by their length
/// fields; where one byte is left, or a length is below 6 or runs past the end, the
/// rest is the last piece. An empty slice has no piece."
pub fn pieces(row: &[u8]) -> Vec<&[u8]> {
    let mut pieces = Vec::new();
    let mut rest = row;
    while !rest.is_empty() {
        let length = first_length(rest);
        pieces.push(&rest[..length]);
        rest = &rest[length..];
    }
    pieces
}

/// The length of the first piece of a slice that is not empty.
fn first_length(rest: &[u8]) -> usize {
    if rest.len() == 1 {
        return 1;
    }
    let length = unsigned(&rest[0..2]) as usize;
    if length < 6 || length > rest.len() {
        rest.len()
    } else {
        length
    }
}

/// "A row .. can also be merged in one call, half with half and each half likewise,
/// the left half having the odd one."
pub fn merge_row(row: &[Summary]) -> Summary {
    if row.len() == 1 {
        return row[0].clone();
    }
    let (left, right) = row.split_at(left_half(row.len()));
    merge(&merge_row(left), &merge_row(right))
}

/// How many of a row make its left half: "the left half having the odd one".
pub fn left_half(count: usize) -> usize {
    count - count / 2
}

/// The lowest of the questions 7 to 11 that gets a "no" for the log that a row
/// stands for.
pub fn fault(row: &[Summary]) -> Option<u8> {
    let ends: Vec<(usize, usize, u64)> = row.iter().filter_map(Summary::ends).collect();
    let spoilt_fault = row
        .iter()
        .filter_map(|summary| match &summary.case {
            Case::Spoilt(spoilt) => Some(spoilt.fault),
            _ => None,
        })
        .min();
    let no_to_7 = spoilt_fault == Some(7) || ends.windows(2).any(|pair| pair[0].1 != pair[1].0);
    let no_to_8 = spoilt_fault == Some(8) || ends.windows(2).any(|pair| pair[0].1 == 0);
    let opened: u64 = ends.iter().map(|&(_, _, opened)| opened).sum();
    if no_to_7 {
        Some(7)
    } else if no_to_8 {
        Some(8)
    } else if opened > MOST_OPENED {
        Some(9)
    } else if ends.is_empty() {
        Some(10)
    } else if ends[0].0 != 0 || ends[ends.len() - 1].1 != 0 {
        Some(11)
    } else {
        None
    }
}
