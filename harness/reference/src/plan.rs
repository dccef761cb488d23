//! "Plan and runs": the joins of a row's chunks, one line each. Once from the levels
//! of the summaries, once from the records of the log, as two separate functions.

use crate::bytes::put;
use crate::log::closer;
use crate::record::{Record, DEEPEST};
use crate::summary::{Case, Summary};

/// "One line a join: length 12, kind 19, i, j, lowest and highest depth of those
/// records (16 bits each), chunks counted from 0."
#[derive(Clone, Copy, Debug, PartialEq, Eq)]
pub struct Line {
    pub i: usize,
    pub j: usize,
    pub lowest: usize,
    pub highest: usize,
}

/// The plan of a row, from the levels of its hills.
///
/// "A join of chunks i < j: some record opened in i is closed in j." "Lines go by
/// rising j, then falling i."
pub fn plan_by_levels(row: &[Summary]) -> Vec<Line> {
    let mut lines = Vec::new();
    for j in 0..row.len() {
        for i in (0..j).rev() {
            let depths: Vec<usize> = (0..=DEEPEST).filter(|&depth| is_joined(row, i, j, depth)).collect();
            lines.extend(line(i, j, &depths));
        }
    }
    lines
}

/// Whether the record of a depth that i leaves open is closed in j: j closes one of
/// that depth, and no chunk between does.
fn is_joined(row: &[Summary], i: usize, j: usize, depth: usize) -> bool {
    leaves_open(&row[i], depth) && closes(&row[j], depth) && !(i + 1..j).any(|between| closes(&row[between], depth))
}

/// A hill has an unclosed record of each depth from its peak up to below its end.
fn leaves_open(summary: &Summary, depth: usize) -> bool {
    match &summary.case {
        Case::Hill(hill) => hill.peak <= depth && depth < hill.end,
        _ => false,
    }
}

/// A hill closes an earlier record of each depth from its peak up to below its
/// start.
fn closes(summary: &Summary, depth: usize) -> bool {
    match &summary.case {
        Case::Hill(hill) => hill.peak <= depth && depth < hill.start,
        _ => false,
    }
}

/// The line of a join whose records have these depths, rising; none if there are
/// none.
fn line(i: usize, j: usize, depths: &[usize]) -> Option<Line> {
    Some(Line { i, j, lowest: *depths.iter().min()?, highest: *depths.iter().max()? })
}

/// The plan of a cut log, from its records: who closes whom in the uncut log.
pub fn plan_by_records(chunks: &[Vec<Record>]) -> Vec<Line> {
    let joins = joins_by_records(chunks);
    let mut lines = Vec::new();
    for j in 0..chunks.len() {
        for i in (0..j).rev() {
            let depths: Vec<usize> =
                joins.iter().filter(|join| join.opened_in == i && join.closed_in == j).map(|join| join.depth).collect();
            lines.extend(line(i, j, &depths));
        }
    }
    lines
}

/// A record that is opened in one chunk and closed in a later one.
#[derive(Clone, Copy, Debug, PartialEq, Eq)]
pub struct Joined {
    pub opened_in: usize,
    pub closed_in: usize,
    pub depth: usize,
}

/// All records that are closed in another chunk than the one that opened them.
pub fn joins_by_records(chunks: &[Vec<Record>]) -> Vec<Joined> {
    let log: Vec<Record> = chunks.concat();
    let mut chunk_of = Vec::new();
    for (number, chunk) in chunks.iter().enumerate() {
        chunk_of.extend(vec![number; chunk.len()]);
    }
    let mut joins = Vec::new();
    for place in crate::log::opens(&log) {
        if let Some(last) = closer(&log, place) {
            joins.push(Joined { opened_in: chunk_of[place], closed_in: chunk_of[last], depth: log[place].depth() });
        }
    }
    joins.retain(|join| join.opened_in != join.closed_in);
    joins
}

/// The bytes of a plan.
pub fn encode_plan(lines: &[Line]) -> Vec<u8> {
    let mut out = Vec::new();
    for line in lines {
        put(&mut out, 12, 2);
        put(&mut out, 19, 2);
        put(&mut out, line.i as i64, 2);
        put(&mut out, line.j as i64, 2);
        put(&mut out, line.lowest as i64, 2);
        put(&mut out, line.highest as i64, 2);
    }
    out
}
