//! "Summaries": their bytes. Writing them, judging bytes (question 5), reading them.

use crate::bytes::{put, signed, unsigned};
use crate::log::MOST_OPENED;
use crate::mode::{loaded, nothing, stored, Grams, Mode};
use crate::record::{grams_in_range, GRAMS};
use crate::summary::{Case, Hill, Spoilt, Summary, Unclosed, MORE_OPENED};

pub const BLANK: u64 = 16;
pub const SPOILT: u64 = 17;
pub const HILL: u64 = 18;

/// "levels are 0 to 64"
pub const HIGHEST_LEVEL: u64 = 64;

/// "Each begins with length, kind and mode, 16 bits each."
pub fn encode(summary: &Summary) -> Vec<u8> {
    let (kind, body) = match &summary.case {
        Case::Blank => (BLANK, Vec::new()),
        Case::Spoilt(spoilt) => (SPOILT, encode_spoilt(spoilt)),
        Case::Hill(hill) => (HILL, encode_hill(hill)),
    };
    let mut out = Vec::new();
    put(&mut out, 6 + body.len() as i64, 2);
    put(&mut out, kind as i64, 2);
    put(&mut out, i64::from(summary.mode.number()), 2);
    out.extend(body);
    out
}

/// "Then fault .., start level, end level (16 bits each), and opened records (32
/// bits..)"
fn encode_spoilt(spoilt: &Spoilt) -> Vec<u8> {
    let mut out = Vec::new();
    put(&mut out, i64::from(spoilt.fault), 2);
    put(&mut out, spoilt.start as i64, 2);
    put(&mut out, spoilt.end as i64, 2);
    put(&mut out, spoilt.opened as i64, 4);
    out
}

/// "Then start, peak, end (16 bits each), opened records (32 bits); signed 64-bit
/// left values ..; one middle value at the peak; and for each level .. the value,
/// floor, ceiling .. and its 64-bit combined held figures so far."
fn encode_hill(hill: &Hill) -> Vec<u8> {
    let mut out = Vec::new();
    put(&mut out, hill.start as i64, 2);
    put(&mut out, hill.peak as i64, 2);
    put(&mut out, hill.end as i64, 2);
    put(&mut out, hill.opened as i64, 4);
    for &value in &hill.left {
        put(&mut out, stored(value), 8);
    }
    put(&mut out, stored(hill.middle), 8);
    for unclosed in &hill.right {
        put(&mut out, unclosed.record.value, 4);
        put(&mut out, unclosed.record.floor, 4);
        put(&mut out, unclosed.record.ceiling, 4);
        put(&mut out, stored(unclosed.held), 8);
    }
    out
}

/// A 16-bit field at an offset.
fn field16(bytes: &[u8], offset: usize) -> u64 {
    unsigned(&bytes[offset..offset + 2])
}

/// Question 5: "Is each given piece exactly one summary?"
///
/// "Bytes are a summary if the layout and mode fit" and the clauses of the kind
/// hold.
pub fn is_summary(bytes: &[u8]) -> bool {
    if bytes.len() < 6 || field16(bytes, 0) != bytes.len() as u64 {
        return false;
    }
    let Some(mode) = mode_of(bytes) else {
        return false;
    };
    match field16(bytes, 2) {
        BLANK => bytes.len() == 6,
        SPOILT => bytes.len() == 16 && is_spoilt(bytes),
        HILL => bytes.len() >= 24 && is_hill(mode, bytes),
        _ => false,
    }
}

/// The mode of a piece, if it is one in use: "mode 3 gets .. 5 within a summary".
fn mode_of(bytes: &[u8]) -> Option<Mode> {
    Mode::from_number(field16(bytes, 4) as u32)
}

/// "fault (7, 8 or 9 ..)"; "levels are 0 to 64"; opened "at most 100,001"; "A spoilt
/// one with fault 9 has opened 100,001."
fn is_spoilt(bytes: &[u8]) -> bool {
    let fault = field16(bytes, 6);
    let opened = unsigned(&bytes[12..16]);
    (7..=9).contains(&fault)
        && field16(bytes, 8) <= HIGHEST_LEVEL
        && field16(bytes, 10) <= HIGHEST_LEVEL
        && opened <= MORE_OPENED
        && (fault != 9 || opened == MORE_OPENED)
}

/// The clauses of a hill: first its levels and its length, then what they give a
/// place to.
fn is_hill(mode: Mode, bytes: &[u8]) -> bool {
    let start = field16(bytes, 6);
    let peak = field16(bytes, 8);
    let end = field16(bytes, 10);
    levels_fit(start, peak, end)
        && bytes.len() as u64 == 24 + 8 * (start - peak) + 20 * (end - peak)
        && hill_values_fit(mode, &read_hill(mode, bytes))
}

/// "levels are 0 to 64 with peak not above start or end, a peak of 0 has start or
/// end 0"
fn levels_fit(start: u64, peak: u64, end: u64) -> bool {
    start <= HIGHEST_LEVEL && end <= HIGHEST_LEVEL && peak <= start && peak <= end && (peak != 0 || start == 0 || end == 0)
}

/// The clauses about opened, the middle, the records and the range of values.
fn hill_values_fit(mode: Mode, hill: &Hill) -> bool {
    let flat = hill.start == hill.peak && hill.peak == hill.end;
    let whole = hill.start == 0 && hill.end == 0;
    // "In a hill opened is at most 100,000, and not 0 if start = peak = end."
    hill.opened <= MOST_OPENED
        && !(flat && hill.opened == 0)
        // "At peak 0 the middle holds nothing unless start = end = 0."
        && (hill.peak != 0 || whole || hill.middle == nothing(mode))
        && records_fit(hill)
        && range_fits(mode, hill)
}

/// "records meet the ranges above"
fn records_fit(hill: &Hill) -> bool {
    hill.right.iter().all(|unclosed| {
        let record = &unclosed.record;
        grams_in_range(record.value, record.floor, record.ceiling)
    })
}

/// "10^9 × unclosed records + the absolute 64-bit values (-2^63 in mode 2 counts 0) is
/// at most 10^9 × opened", in modes 1, 2 and 5; in 5 too -2^63 "counts 0 in the range
/// sum". "In mode 4, 64-bit values are 0 to 2^32 - 1, and opened is at least the
/// unclosed records."
fn range_fits(mode: Mode, hill: &Hill) -> bool {
    let right = hill.right.iter().map(|unclosed| unclosed.held);
    let values: Vec<i64> = hill.left.iter().copied().chain([hill.middle]).chain(right).flatten().collect();
    let unclosed = hill.right.len() as u64;
    match mode {
        Mode::Net | Mode::Heaviest | Mode::Eaten => {
            let absolute: i128 = values.iter().map(|&value| i128::from(value).abs()).sum();
            let grams = i128::from(GRAMS);
            grams * i128::from(unclosed) + absolute <= grams * i128::from(hill.opened)
        }
        Mode::Stamp => values.iter().all(|value| (0..1 << 32).contains(value)) && hill.opened >= unclosed,
    }
}

/// The fields of a hill, out of bytes whose levels and length fit.
fn read_hill(mode: Mode, bytes: &[u8]) -> Hill {
    let start = field16(bytes, 6) as usize;
    let peak = field16(bytes, 8) as usize;
    let end = field16(bytes, 10) as usize;
    let value = |offset: usize| loaded(mode, signed(&bytes[offset..offset + 8]));
    let middle_offset = 16 + 8 * (start - peak);
    Hill {
        start,
        peak,
        end,
        opened: unsigned(&bytes[12..16]),
        left: (0..start - peak).map(|k| value(16 + 8 * k)).collect(),
        middle: value(middle_offset),
        right: (0..end - peak).map(|k| read_unclosed(mode, &bytes[middle_offset + 8 + 20 * k..])).collect(),
    }
}

/// Value, floor, ceiling (32 bits each) and held figures (64 bits).
fn read_unclosed(mode: Mode, bytes: &[u8]) -> Unclosed {
    Unclosed {
        record: Grams { value: signed(&bytes[0..4]), floor: signed(&bytes[4..8]), ceiling: signed(&bytes[8..12]) },
        held: loaded(mode, signed(&bytes[12..20])),
    }
}

/// The summary that bytes are, if they are one.
pub fn decode(bytes: &[u8]) -> Option<Summary> {
    if !is_summary(bytes) {
        return None;
    }
    let mode = mode_of(bytes)?;
    let case = match field16(bytes, 2) {
        BLANK => Case::Blank,
        SPOILT => Case::Spoilt(Spoilt {
            fault: field16(bytes, 6) as u8,
            start: field16(bytes, 8) as usize,
            end: field16(bytes, 10) as usize,
            opened: unsigned(&bytes[12..16]),
        }),
        _ => Case::Hill(read_hill(mode, bytes)),
    };
    Some(Summary { mode, case })
}
