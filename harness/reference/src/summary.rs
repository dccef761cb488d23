//! "Summaries": the three cases, and the summary of a chunk in the paper's words.

use crate::log;
use crate::mode::{combine, Grams, Held, Mode};
use crate::record::Record;
use crate::tree::{figure_by_holding, grams, open_at};

/// "opened records (32 bits, at most 100,001, which means 'more')"
pub const MORE_OPENED: u64 = 100_001;

/// "A summary is one of three cases", in a mode.
#[derive(Clone, Debug, PartialEq, Eq)]
pub struct Summary {
    pub mode: Mode,
    pub case: Case,
}

#[derive(Clone, Debug, PartialEq, Eq)]
pub enum Case {
    /// "blank: .. a chunk with no record"
    Blank,
    Spoilt(Spoilt),
    Hill(Hill),
}

/// "fault (7, 8 or 9, the lowest present), start level, end level .., and opened
/// records"
#[derive(Clone, Copy, Debug, PartialEq, Eq)]
pub struct Spoilt {
    pub fault: u8,
    pub start: usize,
    pub end: usize,
    pub opened: u64,
}

#[derive(Clone, Debug, PartialEq, Eq)]
pub struct Hill {
    pub start: usize,
    pub peak: usize,
    pub end: usize,
    pub opened: u64,
    /// "left values from level start down to peak+1"
    pub left: Vec<Held>,
    /// "one middle value at the peak"
    pub middle: Held,
    /// "for each level from peak+1 up to end"
    pub right: Vec<Unclosed>,
}

/// "the value, floor, ceiling of the unclosed record one depth lower, which holds
/// the records at that level, and its 64-bit combined held figures so far"
#[derive(Clone, Copy, Debug, PartialEq, Eq)]
pub struct Unclosed {
    pub record: Grams,
    pub held: Held,
}

impl Hill {
    /// The left value of a level from peak+1 to start.
    pub fn left_at(&self, level: usize) -> Held {
        self.left[self.start - level]
    }

    /// The unclosed record that holds the records at a level from peak+1 to end.
    pub fn unclosed_at(&self, level: usize) -> Unclosed {
        self.right[level - (self.peak + 1)]
    }
}

impl Summary {
    /// Start level, end level and opened records, where there is a record.
    pub fn ends(&self) -> Option<(usize, usize, u64)> {
        match &self.case {
            Case::Blank => None,
            Case::Spoilt(spoilt) => Some((spoilt.start, spoilt.end, spoilt.opened)),
            Case::Hill(hill) => Some((hill.start, hill.end, hill.opened)),
        }
    }
}

/// The summary of a chunk: blank without a record, spoilt with a fault 7, 8 or 9
/// ("the result is a spoilt summary"), else a hill.
pub fn summary_of(mode: Mode, records: &[Record]) -> Summary {
    let case = if records.is_empty() {
        Case::Blank
    } else if let Some(fault) = log::chunk_fault(records) {
        Case::Spoilt(Spoilt {
            fault,
            start: records[0].start_level(),
            end: records[records.len() - 1].end_level(),
            opened: log::opened(records).min(MORE_OPENED),
        })
    } else {
        Case::Hill(hill_of(mode, records))
    };
    Summary { mode, case }
}

/// The hill of a chunk with a record and no fault 7, 8 or 9.
fn hill_of(mode: Mode, records: &[Record]) -> Hill {
    let start = records[0].start_level();
    let end = records[records.len() - 1].end_level();
    let peak = peak_of(records);
    let loose = loose(records);
    Hill {
        start,
        peak,
        end,
        opened: log::opened(records),
        left: (peak + 1..=start).rev().map(|level| value_at(mode, records, &loose, level)).collect(),
        middle: value_at(mode, records, &loose, peak),
        right: (peak + 1..=end).map(|level| unclosed_below(mode, records, level)).collect(),
    }
}

/// "Peak is the lowest level reached."
fn peak_of(records: &[Record]) -> usize {
    let lowest_of = |record: &Record| record.start_level().min(record.end_level());
    records.iter().map(lowest_of).min().expect("a record")
}

/// The places of the records "that are both opened and closed in the chunk and held
/// by none that the chunk opens".
fn loose(records: &[Record]) -> Vec<usize> {
    let is_held = log::held_by_some(records);
    log::opens(records).into_iter().filter(|&place| log::closer(records, place).is_some() && !is_held[place]).collect()
}

/// "A left or middle value combines the records at its level" that are loose. "A
/// record of depth d is at level d."
fn value_at(mode: Mode, records: &[Record], loose: &[usize], level: usize) -> Held {
    let parts: Vec<Held> = loose
        .iter()
        .filter(|&&place| records[place].depth() == level)
        .map(|&place| Some(figure_by_holding(mode, records, place)))
        .collect();
    combine(mode, &parts)
}

/// The unclosed record of depth level - 1; "the held figures so far are those of
/// held records that the chunk also closes".
fn unclosed_below(mode: Mode, records: &[Record], level: usize) -> Unclosed {
    let place = log::opens(records)
        .into_iter()
        .find(|&place| records[place].depth() + 1 == level && log::closer(records, place).is_none())
        .expect("an unclosed record below each level above the peak");
    let parts: Vec<Held> = log::held(records, place)
        .into_iter()
        .filter(|&later| log::closer(records, later).is_some())
        .map(|later| Some(figure_by_holding(mode, records, later)))
        .collect();
    Unclosed { record: grams(&open_at(records, place)), held: combine(mode, &parts) }
}

/// What finish answers of one summary: its figure, or the lowest fault of 7 to 11.
pub fn finish(summary: &Summary) -> Result<Held, u8> {
    match &summary.case {
        Case::Spoilt(spoilt) => Err(spoilt.fault),
        Case::Blank => Err(10),
        Case::Hill(hill) if hill.start != 0 || hill.end != 0 => Err(11),
        Case::Hill(hill) => Ok(hill.middle),
    }
}
