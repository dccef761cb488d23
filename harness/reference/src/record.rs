//! "Records", with document 02's L2, "Pellet batch in the open record", and L8, "Short
//! records start from zero": reading them, their ranges, and writing them.

use crate::bytes::{put, signed, unsigned};

/// "value, floor and ceiling lie within ±1,000,000,000"
pub const GRAMS: i64 = 1_000_000_000;

/// "depth is 0 to 63"
pub const DEEPEST: usize = 63;

/// Length 10. Document 01: "the floor is then -1,000,000,000"; document 02, L8: "The default
/// floor becomes 0".
pub const DEFAULT_FLOOR: i64 = 0;

/// Length 10: "and the ceiling 1,000,000,000"; L8: "the ceiling stays at 1,000,000,000".
pub const DEFAULT_CEILING: i64 = 1_000_000_000;

/// "Kind 1, open."
pub const OPEN: u64 = 1;

/// "Kind 2, close."
pub const CLOSE: u64 = 2;

/// What an open record says. Numbers are held wider than in the bytes, so that
/// tests can write records that are out of range.
#[derive(Clone, Copy, Debug, PartialEq, Eq)]
pub struct Open {
    pub depth: usize,
    pub value: i64,
    pub floor: i64,
    pub ceiling: i64,
}

#[derive(Clone, Copy, Debug, PartialEq, Eq)]
pub enum Record {
    Open(Open),
    Close { depth: usize },
}

impl Record {
    pub fn depth(&self) -> usize {
        match self {
            Record::Open(open) => open.depth,
            Record::Close { depth } => *depth,
        }
    }

    pub fn is_open(&self) -> bool {
        matches!(self, Record::Open(_))
    }

    /// "an open at depth d goes from level d to d+1, a close from d+1 to d"
    pub fn start_level(&self) -> usize {
        match self {
            Record::Open(open) => open.depth,
            Record::Close { depth } => depth + 1,
        }
    }

    /// "an open at depth d goes from level d to d+1, a close from d+1 to d"
    pub fn end_level(&self) -> usize {
        match self {
            Record::Open(open) => open.depth + 1,
            Record::Close { depth } => *depth,
        }
    }
}

/// What stands at the front of a chunk. The batch is beside the record and not in it,
/// since L2 lets reading alone answer it: "all other calls drop it".
#[derive(Clone, Copy, Debug, PartialEq, Eq)]
pub struct First {
    pub record: Record,
    pub length: usize,
    pub batch: Option<i64>,
}

/// The first record of a chunk, or nothing if it is not readable.
///
/// "A record is readable if its length suits its kind, all its bytes are there,
/// depth is 0 to 63, value, floor and ceiling lie within ±1,000,000,000, and floor
/// is not above ceiling." Later bytes "are not judged".
pub fn read_first(chunk: &[u8]) -> Option<First> {
    if chunk.len() < 4 {
        return None;
    }
    let length = unsigned(&chunk[0..2]) as usize;
    let kind = unsigned(&chunk[2..4]);
    if !length_suits(kind, length) || chunk.len() < length {
        return None;
    }
    let record = fields(&chunk[..length]);
    in_range(&record).then_some(First { record, length, batch: batch(&chunk[..length]) })
}

/// Kind 1 has length 18 or 10, and "Length 22 now suits kind 1"; kind 2 has length 6.
fn length_suits(kind: u64, length: usize) -> bool {
    match kind {
        OPEN => [10, 18, 22].contains(&length),
        CLOSE => length == 6,
        _ => false,
    }
}

/// The fields of a record whose length suits its kind, but for the batch: "depth (16
/// bits), value, floor, ceiling (each a signed 32-bit number of grams)".
fn fields(record: &[u8]) -> Record {
    let depth = unsigned(&record[4..6]) as usize;
    match record.len() {
        18 | 22 => Record::Open(Open {
            depth,
            value: signed(&record[6..10]),
            floor: signed(&record[10..14]),
            ceiling: signed(&record[14..18]),
        }),
        10 => Record::Open(Open { depth, value: signed(&record[6..10]), floor: DEFAULT_FLOOR, ceiling: DEFAULT_CEILING }),
        _ => Record::Close { depth },
    }
}

/// "An open record may have length 22: the 18 bytes, then the batch, unsigned."
fn batch(record: &[u8]) -> Option<i64> {
    (record.len() == 22).then(|| unsigned(&record[18..22]) as i64)
}

/// The ranges of a readable record.
pub fn in_range(record: &Record) -> bool {
    let numbers_in_range = match record {
        Record::Open(open) => grams_in_range(open.value, open.floor, open.ceiling),
        Record::Close { .. } => true,
    };
    record.depth() <= DEEPEST && numbers_in_range
}

/// "value, floor and ceiling lie within ±1,000,000,000, and floor is not above
/// ceiling"
pub fn grams_in_range(value: i64, floor: i64, ceiling: i64) -> bool {
    let within = |grams: i64| (-GRAMS..=GRAMS).contains(&grams);
    within(value) && within(floor) && within(ceiling) && floor <= ceiling
}

/// All records of a chunk, or nothing if one is not readable.
///
/// "After a readable record, the rest of the chunk is read as a chunk of its own."
pub fn records_of(chunk: &[u8]) -> Option<Vec<Record>> {
    let mut records = Vec::new();
    let mut rest = chunk;
    while !rest.is_empty() {
        let first = read_first(rest)?;
        records.push(first.record);
        rest = &rest[first.length..];
    }
    Some(records)
}

/// What every record begins with.
fn head(length: i64, kind: u64, depth: usize) -> Vec<u8> {
    let mut out = Vec::new();
    put(&mut out, length, 2);
    put(&mut out, kind as i64, 2);
    put(&mut out, depth as i64, 2);
    out
}

/// An open record of a length, up to its ceiling.
fn up_to_ceiling(length: i64, open: &Open) -> Vec<u8> {
    let mut out = head(length, OPEN, open.depth);
    put(&mut out, open.value, 4);
    put(&mut out, open.floor, 4);
    put(&mut out, open.ceiling, 4);
    out
}

/// An open record of length 18.
pub fn encode_full(open: &Open) -> Vec<u8> {
    up_to_ceiling(18, open)
}

/// An open record of length 22.
pub fn encode_with_batch(open: &Open, batch: u32) -> Vec<u8> {
    let mut out = up_to_ceiling(22, open);
    put(&mut out, batch.into(), 4);
    out
}

/// An open record of length 10: "depth and value only".
pub fn encode_short(depth: usize, value: i64) -> Vec<u8> {
    let mut out = head(10, OPEN, depth);
    put(&mut out, value, 4);
    out
}

/// A close record, length 6.
pub fn encode_close(depth: usize) -> Vec<u8> {
    head(6, CLOSE, depth)
}

/// The bytes of records, each open as it is given.
fn encode_with(records: &[Record], encode_open: impl Fn(&Open) -> Vec<u8>) -> Vec<u8> {
    let encode = |record: &Record| match record {
        Record::Open(open) => encode_open(open),
        Record::Close { depth } => encode_close(*depth),
    };
    records.iter().flat_map(encode).collect()
}

/// The bytes of records, opens of length 18.
pub fn encode_all(records: &[Record]) -> Vec<u8> {
    encode_with(records, encode_full)
}

/// The bytes of records, opens of length 10: their floors and ceilings are left out.
pub fn encode_all_short(records: &[Record]) -> Vec<u8> {
    encode_with(records, |open| encode_short(open.depth, open.value))
}
