//! Document 02, L1, "Log out of the day table": the log written from a table, and the
//! table read back from a log.
//!
//! Writing goes by the tree that the lines stand for: each line looks for the one that
//! holds it, and the tree is written out as that of a log is.

use crate::bytes::{put, signed, unsigned};
use crate::log::opens;
use crate::record::{encode_full, read_first, Open, Record};
use crate::tree::{grams, open_at, write, Tree};

/// "14 bytes a line"
pub const LINE: usize = 14;

/// "over 38,220 bytes (2,730 lines) gets 2"
pub const LONGEST_TABLE: usize = 38_220;

/// "Writing the log: over 38,220 bytes (2,730 lines) gets 2"
pub fn question_2(table: &[u8]) -> Result<(), u8> {
    if table.len() <= LONGEST_TABLE {
        Ok(())
    } else {
        Err(2)
    }
}

/// "a length that is no multiple of 14 gets 3"; "a line whose fields no readable full
/// open record could hold gets 3". Otherwise the lines.
pub fn question_3(table: &[u8]) -> Result<Vec<Open>, u8> {
    if !table.len().is_multiple_of(LINE) {
        return Err(3);
    }
    let lines: Vec<Open> = table.chunks_exact(LINE).map(fields).collect();
    if lines.iter().all(a_record_could_hold) {
        Ok(lines)
    } else {
        Err(3)
    }
}

/// "lines in log order: depth (16 bits), value, floor, ceiling (signed 32 bits), 14
/// bytes a line"
fn fields(line: &[u8]) -> Open {
    let depth = unsigned(&line[0..2]) as usize;
    let [value, floor, ceiling] = [2, 6, 10].map(|place| signed(&line[place..place + 4]));
    Open { depth, value, floor, ceiling }
}

/// Whether the full open record with these fields is readable.
fn a_record_could_hold(line: &Open) -> bool {
    read_first(&encode_full(line)).is_some()
}

/// "13, after 3, when the first depth is not 0, a later one is 0, or a depth is more
/// than one above the line before it"
pub fn question_13(lines: &[Open]) -> Result<(), u8> {
    let first_is_not_0 = lines.iter().take(1).any(|line| line.depth != 0);
    let a_later_one_is_0 = lines.iter().skip(1).any(|line| line.depth == 0);
    let one_is_more_than_one_above = lines.windows(2).any(|pair| pair[1].depth > pair[0].depth + 1);
    if first_is_not_0 || a_later_one_is_0 || one_is_more_than_one_above {
        Err(13)
    } else {
        Ok(())
    }
}

/// "no line gets 10"
pub fn question_10(lines: &[Open]) -> Result<(), u8> {
    if lines.is_empty() {
        Err(10)
    } else {
        Ok(())
    }
}

/// "We need the log written from it, full open records, closes where they belong." Asked
/// of lines that get a "yes" to 13 and 10.
pub fn log_of(lines: &[Open]) -> Vec<Record> {
    let holders: Vec<Option<usize>> = (0..lines.len()).map(|place| holder(lines, place)).collect();
    write(&tree(lines, &holders, 0), 0)
}

/// The place of the line that holds the one at `place`: the last before it that is one
/// depth less deep. The first line has none.
fn holder(lines: &[Open], place: usize) -> Option<usize> {
    (0..place).rfind(|&earlier| lines[earlier].depth + 1 == lines[place].depth)
}

/// The tree of the line at `place`: it holds the lines that found it as their holder.
fn tree(lines: &[Open], holders: &[Option<usize>], place: usize) -> Tree {
    let held = (0..lines.len()).filter(|&later| holders[later] == Some(place));
    Tree { record: grams(&lines[place]), held: held.map(|later| tree(lines, holders, later)).collect() }
}

/// The table of a well-formed log: its open records, in log order. "A short record read
/// back fills its line with the default floor and ceiling", which it has from its reading.
pub fn table_of(log: &[Record]) -> Vec<Open> {
    opens(log).into_iter().map(|place| open_at(log, place)).collect()
}

/// The bytes of lines.
pub fn encode_table(lines: &[Open]) -> Vec<u8> {
    let mut out = Vec::new();
    for line in lines {
        put(&mut out, line.depth as i64, 2);
        put(&mut out, line.value, 4);
        put(&mut out, line.floor, 4);
        put(&mut out, line.ceiling, 4);
    }
    out
}
