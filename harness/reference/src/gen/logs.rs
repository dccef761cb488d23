//! Logs, well formed and with each fault; their bytes; cuts; merge lists.

use super::Rng;
use crate::heaviest_line::line_of;
use crate::log::{closer, opens};
use crate::mode::Mode;
use crate::record::{encode_all_short, encode_close, encode_full, encode_short, encode_with_batch, read_first};
use crate::record::{First, Open, Record, DEEPEST, DEFAULT_CEILING, DEFAULT_FLOOR, GRAMS};
use crate::replay::{Call, Step, Stretches};

/// How the tree of a log looks.
#[derive(Clone, Copy, Debug, PartialEq, Eq)]
pub enum Shape {
    /// One record that holds all others.
    Flat,
    /// A few levels, many branches.
    Bushy,
    /// Down to depth 63 and up again, many times over.
    Deep,
    /// One long line down, with short branches on both sides.
    Caterpillar,
    /// Opens and closes as they come, within a depth drawn at random.
    Any,
}

pub const SHAPES: [Shape; 5] = [Shape::Flat, Shape::Bushy, Shape::Deep, Shape::Caterpillar, Shape::Any];

/// From where values, floors and ceilings are drawn.
#[derive(Clone, Copy, Debug, PartialEq, Eq)]
pub enum Values {
    /// -1, 0 or 1 gram, so that figures are often equal.
    Few,
    /// A few grams, so that floors and ceilings bind often.
    Small,
    /// The ends of the range, and next to them.
    Ends,
    /// The whole range.
    Full,
}

/// Those of most logs.
pub const VALUES: [Values; 3] = [Values::Small, Values::Ends, Values::Full];

/// A number of grams within ±1,000,000,000.
pub fn grams(rng: &mut Rng, values: Values) -> i64 {
    match values {
        Values::Few => rng.between(-1, 1),
        Values::Small => rng.between(-20, 20),
        Values::Ends => rng.pick(&[-GRAMS, 1 - GRAMS, -1, 0, 1, GRAMS - 1, GRAMS]),
        Values::Full => rng.between(-GRAMS, GRAMS),
    }
}

/// What L8 calls the old floor, a short record's in document 01: "the floor is then
/// -1,000,000,000".
pub const OLD_FLOOR: i64 = -1_000_000_000;

/// A readable open record; its floor and ceiling are the default ones in a third of the
/// cases, the old floor and that ceiling in a sixth, and equal in another.
pub fn open(rng: &mut Rng, depth: usize, values: Values) -> Open {
    let value = grams(rng, values);
    let (one, other) = (grams(rng, values), grams(rng, values));
    let (floor, ceiling) = match rng.below(6) {
        0 | 1 => (DEFAULT_FLOOR, DEFAULT_CEILING),
        2 => (OLD_FLOOR, DEFAULT_CEILING),
        3 => (one, one),
        _ => (one.min(other), one.max(other)),
    };
    Open { depth, value, floor, ceiling }
}

/// A well-formed log of about `opened` opened records, at least one.
pub fn log(rng: &mut Rng, shape: Shape, values: Values, opened: usize) -> Vec<Record> {
    match shape {
        Shape::Flat => walk(rng, values, opened, 1, 1),
        Shape::Bushy => walk(rng, values, opened, 5, 1),
        Shape::Deep => walk(rng, values, opened, DEEPEST, 9),
        Shape::Caterpillar => caterpillar(rng, values, opened),
        Shape::Any => {
            let deepest = 1 + rng.below(DEEPEST);
            walk(rng, values, opened, deepest, 2)
        }
    }
}

/// A well-formed log of a shape, values and size drawn at random.
pub fn any_log(rng: &mut Rng, most_opened: usize) -> Vec<Record> {
    let shape = rng.pick(&SHAPES);
    let values = rng.pick(&VALUES);
    let opened = 1 + rng.below(most_opened);
    log(rng, shape, values, opened)
}

/// A well-formed log of at most so many opened records, or a few more, in which several of
/// those that one holds often have the greatest figure in mode 2, or nearly.
pub fn log_with_ties(rng: &mut Rng, most_opened: usize) -> Vec<Record> {
    let shape = rng.pick(&SHAPES);
    let opened = 1 + rng.below(most_opened);
    let mut records = log(rng, shape, Values::Few, opened.div_ceil(2));
    for _ in 0..rng.below(12) {
        let longer = with_copy(rng, &records);
        if longer.len() <= 2 * most_opened {
            records = longer;
        }
    }
    records
}

/// The log in which a record of its heaviest line stands twice, with all that it holds: the
/// copy before or after it, as it is or with a gram more or less somewhere.
fn with_copy(rng: &mut Rng, log: &[Record]) -> Vec<Record> {
    let line = line_of(log);
    if line.len() == 1 {
        return log.to_vec();
    }
    let place = opens(log)[line[1 + rng.below(line.len() - 1)]];
    let after = closer(log, place).expect("a record that is closed") + 1;
    let mut copy = log[place..after].to_vec();
    let changed = rng.below(copy.len());
    if let Record::Open(open) = &mut copy[changed] {
        open.value += rng.pick(&[-1, 0, 0, 1]);
    }
    let (before, rest) = log.split_at(rng.pick(&[place, after]));
    [before, &copy, rest].concat()
}

/// Opens and closes at random until `opened` are opened, then closes down to level
/// 0. Where both are possible, `favour` opens come on one close.
fn walk(rng: &mut Rng, values: Values, opened: usize, deepest: usize, favour: usize) -> Vec<Record> {
    let mut records = vec![Record::Open(open(rng, 0, values))];
    let mut level = 1;
    let mut left_to_open = opened.saturating_sub(1);
    while level > 0 {
        let may_open = left_to_open > 0 && level <= deepest;
        let may_close = level > 1 || left_to_open == 0;
        if may_open && (!may_close || !rng.one_in(favour + 1)) {
            records.push(Record::Open(open(rng, level, values)));
            level += 1;
            left_to_open -= 1;
        } else {
            level -= 1;
            records.push(Record::Close { depth: level });
        }
    }
    records
}

/// One line of records down, each with leaves before and after the next.
fn caterpillar(rng: &mut Rng, values: Values, opened: usize) -> Vec<Record> {
    let deepest = (opened / 2).min(DEEPEST);
    let mut records = Vec::new();
    for depth in 0..=deepest {
        records.push(Record::Open(open(rng, depth, values)));
        leaves(rng, values, depth + 1, &mut records);
    }
    for depth in (0..=deepest).rev() {
        records.push(Record::Close { depth });
        if depth > 0 {
            leaves(rng, values, depth, &mut records);
        }
    }
    records
}

/// None, one or two records that hold nothing, if the depth allows them.
fn leaves(rng: &mut Rng, values: Values, depth: usize, records: &mut Vec<Record>) {
    if depth <= DEEPEST {
        for _ in 0..rng.pick(&[0, 0, 1, 2]) {
            records.push(Record::Open(open(rng, depth, values)));
            records.push(Record::Close { depth });
        }
    }
}

/// A flat well-formed log with exactly `opened` opened records of one gram each.
pub fn flat(opened: usize) -> Vec<Record> {
    let one_gram = |depth| Record::Open(Open { depth, value: 1, floor: DEFAULT_FLOOR, ceiling: DEFAULT_CEILING });
    let mut records = vec![one_gram(0)];
    for _ in 1..opened {
        records.push(one_gram(1));
        records.push(Record::Close { depth: 1 });
    }
    records.push(Record::Close { depth: 0 });
    records
}

/// The shapes of all well-formed logs with `opened` opened records, each once: true
/// for an open, false for a close.
pub fn all_shapes(opened: usize) -> Vec<Vec<bool>> {
    let mut begun: Vec<(Vec<bool>, usize)> = vec![(vec![true], 1)];
    for _ in 1..2 * opened {
        let mut longer = Vec::new();
        for (shape, level) in begun {
            let opens = shape.iter().filter(|&&is_open| is_open).count();
            if opens < opened {
                longer.push(([shape.clone(), vec![true]].concat(), level + 1));
            }
            if level > 1 || opens == opened {
                longer.push(([shape, vec![false]].concat(), level - 1));
            }
        }
        begun = longer;
    }
    begun.into_iter().map(|(shape, _)| shape).collect()
}

/// A log of a given shape with values drawn at random.
pub fn of_shape(rng: &mut Rng, shape: &[bool], values: Values) -> Vec<Record> {
    let mut level = 0;
    let mut records = Vec::new();
    for &is_open in shape {
        if is_open {
            records.push(Record::Open(open(rng, level, values)));
            level += 1;
        } else {
            level -= 1;
            records.push(Record::Close { depth: level });
        }
    }
    records
}

/// A log with each open record changed, in log order.
pub fn changed(log: &[Record], mut change: impl FnMut(Open) -> Open) -> Vec<Record> {
    let one = |record: &Record| match record {
        Record::Open(open) => Record::Open(change(*open)),
        Record::Close { .. } => *record,
    };
    log.iter().map(one).collect()
}

/// A log whose lowest fault is the given one: 7, 8, 9, 10 or 11.
pub fn with_fault(rng: &mut Rng, fault: u8) -> Vec<Record> {
    match fault {
        // Without a record from the middle, its neighbours do not meet.
        7 => {
            let mut records = log(rng, Shape::Any, Values::Small, 12);
            let place = 1 + rng.below(records.len() - 2);
            records.remove(place);
            records
        }
        // Between two logs the level is 0.
        8 => [any_log(rng, 10), any_log(rng, 10)].concat(),
        9 => flat(100_001),
        10 => Vec::new(),
        // A part of a log begins or ends above level 0.
        11 => {
            let records = any_log(rng, 20);
            let first = rng.below(records.len());
            let last = first + rng.below(records.len() - first);
            if (first, last) == (0, records.len() - 1) {
                records[..last].to_vec()
            } else {
                records[first..=last].to_vec()
            }
        }
        _ => panic!("no fault {fault}"),
    }
}

/// A well-formed log as of [`any_log`], or once in four times one with a fault 7, 8, 10 or 11.
pub fn log_or_faulty(rng: &mut Rng, most_opened: usize) -> Vec<Record> {
    if rng.one_in(4) {
        let fault = rng.pick(&[7, 8, 10, 11]);
        with_fault(rng, fault)
    } else {
        any_log(rng, most_opened)
    }
}

/// Batches at the ends of their range and of the signed one; and such as begin like a
/// record: with the length and the kind of a close, and of an open of each length.
pub const BATCHES: [u32; 9] = [0, 1, 0x7fff_ffff, 0x8000_0000, 0xffff_ffff, 0x0002_0006, 0x0001_000a, 0x0001_0012, 0x0001_0016];

/// A batch: in half of the cases one of those above.
pub fn batch(rng: &mut Rng) -> u32 {
    let any = rng.bits() as u32;
    if rng.one_in(2) {
        any
    } else {
        rng.pick(&BATCHES)
    }
}

/// An open record of length 18, or in half of the cases of length 22.
fn encode_full_or_batched(rng: &mut Rng, open: &Open) -> Vec<u8> {
    if rng.one_in(2) {
        encode_full(open)
    } else {
        encode_with_batch(open, batch(rng))
    }
}

/// The bytes of records; an open with the default floor and ceiling is short in half
/// of the cases, and any other has a batch in half of them.
pub fn encode_mixed(rng: &mut Rng, records: &[Record]) -> Vec<u8> {
    let mut out = Vec::new();
    for record in records {
        match record {
            Record::Close { depth } => out.extend(encode_close(*depth)),
            Record::Open(open) => {
                let is_default = (open.floor, open.ceiling) == (DEFAULT_FLOOR, DEFAULT_CEILING);
                if is_default && rng.one_in(2) {
                    out.extend(encode_short(open.depth, open.value));
                } else {
                    out.extend(encode_full_or_batched(rng, open));
                }
            }
        }
    }
    out
}

/// A chunk that differs from this one in batches only: each open of length 18 or 22 has
/// one drawn anew, or none. The bytes from the first unreadable record on stay.
pub fn rebatched(rng: &mut Rng, chunk: &[u8]) -> Vec<u8> {
    rewritten(chunk, |first, bytes| match first.record {
        Record::Open(open) if first.length != 10 => encode_full_or_batched(rng, &open),
        _ => bytes.to_vec(),
    })
}

/// The chunk with each open of length 10 in full, with this floor and the default ceiling. The
/// bytes from the first unreadable record on stay.
pub fn in_full(chunk: &[u8], floor: i64) -> Vec<u8> {
    rewritten(chunk, |first, bytes| match first.record {
        Record::Open(open) if first.length == 10 => encode_full(&Open { floor, ceiling: DEFAULT_CEILING, ..open }),
        _ => bytes.to_vec(),
    })
}

/// The chunk with other bytes for each record. Those from the first unreadable one on stay.
fn rewritten(chunk: &[u8], mut other: impl FnMut(&First, &[u8]) -> Vec<u8>) -> Vec<u8> {
    let mut out = Vec::new();
    let mut rest = chunk;
    while let Some(first) = read_first(rest) {
        let (bytes, later) = rest.split_at(first.length);
        out.extend(other(&first, bytes));
        rest = later;
    }
    out.extend(rest);
    out
}

/// The bytes of chunks: of three in four all opens are short, and the others are mixed.
pub fn encode_mostly_short(rng: &mut Rng, chunks: &[Vec<Record>]) -> Vec<Vec<u8>> {
    chunks.iter().map(|chunk| if rng.one_in(4) { encode_mixed(rng, chunk) } else { encode_all_short(chunk) }).collect()
}

/// Chunks of which some were sent while short records had the old floor: by the toss of a
/// coin those of a chunk stand in full, with that floor.
pub fn some_sent_before(rng: &mut Rng, chunks: &[Vec<u8>]) -> Vec<Vec<u8>> {
    chunks.iter().map(|chunk| if rng.one_in(2) { in_full(chunk, OLD_FLOOR) } else { chunk.clone() }).collect()
}

/// Records cut into `count` chunks at random places; some may be empty.
pub fn cut(rng: &mut Rng, records: &[Record], count: usize) -> Vec<Vec<Record>> {
    let mut places: Vec<usize> = (1..count).map(|_| rng.below(records.len() + 1)).collect();
    places.extend([0, records.len()]);
    places.sort_unstable();
    places.windows(2).map(|pair| records[pair[0]..pair[1]].to_vec()).collect()
}

/// A well-formed log in `count` chunks, 2 to 64, with as many joins as there can be:
/// the first chunk opens a record for each later one to close, and each later one but
/// the last also opens one for the next to close.
pub fn longest_plan(rng: &mut Rng, count: usize) -> Vec<Vec<Record>> {
    let mut open_at = |depth| Record::Open(open(rng, depth, Values::Small));
    let mut chunks = vec![(0..count - 1).map(&mut open_at).collect::<Vec<Record>>()];
    for depth in (0..count - 1).rev() {
        let mut chunk = vec![Record::Close { depth }];
        if chunks.len() > 1 {
            chunk.insert(0, Record::Close { depth: depth + 1 });
        }
        if depth > 0 {
            chunk.push(open_at(depth));
        }
        chunks.push(chunk);
    }
    chunks
}

/// A list of merges on the row of these chunks, each possible on the row as it then
/// stands: one call takes 64 summaries at most. Buffers are exact, one short, empty, longer, or of any length.
pub fn merge_list(rng: &mut Rng, mode: Mode, chunks: &[Vec<Record>]) -> Vec<Step> {
    let mut row = Stretches { mode, stretches: chunks.to_vec() };
    let mut steps = Vec::new();
    while row.count() > 1 && !rng.one_in(40) {
        let call = rng.pick(&[Call::Merge, Call::MergeRow]);
        let count = match call {
            Call::Merge => 2,
            Call::MergeRow => 2 + rng.below(row.count() - 1).min(rng.below(63)),
        };
        let place = rng.below(row.count() - count + 1);
        let exact = row.joined(place, count).len();
        let any = rng.below(2000);
        let capacity = rng.pick(&[exact, exact, exact + 1, exact + any, exact - 1, 0, any]);
        let step = Step { call, place, count, capacity };
        let _ = row.step(&step);
        steps.push(step);
    }
    steps
}
