//! Bytes for tests, put together with the standard library's own conversions, so
//! that the reference's encoder is not judged by itself.

/// An open record of length 18.
pub fn open(depth: u16, value: i32, floor: i32, ceiling: i32) -> Vec<u8> {
    [words(&[18, 1, depth]), grams(&[value, floor, ceiling])].concat()
}

/// An open record of length 22.
pub fn batched(depth: u16, value: i32, floor: i32, ceiling: i32, batch: u32) -> Vec<u8> {
    [words(&[22, 1, depth]), grams(&[value, floor, ceiling]), batch.to_le_bytes().to_vec()].concat()
}

/// A line of a day table.
pub fn line(depth: u16, value: i32, floor: i32, ceiling: i32) -> Vec<u8> {
    [words(&[depth]), grams(&[value, floor, ceiling])].concat()
}

/// Numbers of 32 bits.
fn grams(numbers: &[i32]) -> Vec<u8> {
    numbers.iter().flat_map(|number| number.to_le_bytes()).collect()
}

/// An open record of length 10.
pub fn short(depth: u16, value: i32) -> Vec<u8> {
    let mut out = words(&[10, 1, depth]);
    out.extend(value.to_le_bytes());
    out
}

/// A close record.
pub fn close(depth: u16) -> Vec<u8> {
    words(&[6, 2, depth])
}

/// 16-bit numbers.
pub fn words(numbers: &[u16]) -> Vec<u8> {
    numbers.iter().flat_map(|number| number.to_le_bytes()).collect()
}

/// All that can be put together of so many of these lines or records.
pub fn all_of(parts: &[Vec<u8>], count: usize) -> Vec<Vec<u8>> {
    (0..count).fold(vec![Vec::new()], |begun, _| {
        begun.iter().flat_map(|bytes| parts.iter().map(|part| [&bytes[..], part].concat())).collect()
    })
}

pub fn blank(mode: u16) -> Vec<u8> {
    words(&[6, 16, mode])
}

pub fn spoilt(mode: u16, fault: u16, start: u16, end: u16, opened: u32) -> Vec<u8> {
    let mut out = words(&[16, 17, mode, fault, start, end]);
    out.extend(opened.to_le_bytes());
    out
}

/// The fields of a hill, whether they fit or not.
#[derive(Clone, Debug)]
pub struct Hill {
    pub mode: u16,
    pub start: u16,
    pub peak: u16,
    pub end: u16,
    pub opened: u32,
    pub left: Vec<i64>,
    pub middle: i64,
    /// Value, floor, ceiling, held figures.
    pub right: Vec<(i32, i32, i32, i64)>,
}

impl Hill {
    /// A hill of these levels that holds nothing anywhere, with records of 0 grams.
    pub fn empty(mode: u16, start: u16, peak: u16, end: u16, opened: u32) -> Hill {
        let none = nothing(mode);
        Hill {
            mode,
            start,
            peak,
            end,
            opened,
            left: vec![none; usize::from(start.saturating_sub(peak))],
            middle: none,
            right: vec![(0, 0, 0, none); usize::from(end.saturating_sub(peak))],
        }
    }

    pub fn bytes(&self) -> Vec<u8> {
        let mut body = words(&[18, self.mode, self.start, self.peak, self.end]);
        body.extend(self.opened.to_le_bytes());
        for value in &self.left {
            body.extend(value.to_le_bytes());
        }
        body.extend(self.middle.to_le_bytes());
        for (value, floor, ceiling, held) in &self.right {
            body.extend(value.to_le_bytes());
            body.extend(floor.to_le_bytes());
            body.extend(ceiling.to_le_bytes());
            body.extend(held.to_le_bytes());
        }
        let length = body.len() as u16 + 2;
        [words(&[length]), body].concat()
    }
}

/// The modes in use, in the order of the day's figures: net, heaviest, eaten and stamp.
pub const MODES: [u16; 4] = [1, 2, 5, 4];

/// What stands for a mode in use, of four in that order.
pub fn in_mode<T: Copy>(mode: u16, [net, heaviest, eaten, stamp]: [T; 4]) -> T {
    match mode {
        1 => net,
        2 => heaviest,
        5 => eaten,
        4 => stamp,
        _ => panic!("no mode {mode}"),
    }
}

/// A run of a mode: length 30 and three numbers, in mode 5 length 38 and four.
pub fn run(mode: u16, numbers: &[i64]) -> Vec<u8> {
    let length = run_length(mode);
    assert_eq!(6 + 8 * numbers.len(), length);
    run_of_fields([length as u16, 20, mode], numbers)
}

/// The length, kind and mode of a run and its numbers, whether they fit or not.
pub fn run_of_fields(head: [u16; 3], numbers: &[i64]) -> Vec<u8> {
    [words(&head), numbers.iter().flat_map(|number| number.to_le_bytes()).collect()].concat()
}

/// The numbers of a run.
pub fn run_numbers(run: &[u8]) -> Vec<i64> {
    run[6..].chunks(8).map(|number| i64::from_le_bytes(number.try_into().expect("8 bytes"))).collect()
}

/// 2^32.
pub const RANGE: i64 = 1 << 32;

/// m·x + q modulo 2^32. Of numbers below 2^32 the sum is below 2^64.
pub fn stamp_forwards(m: i64, q: i64, x: i64) -> i64 {
    ((m as u64 * x as u64 + q as u64) % RANGE as u64) as i64
}

/// How many bytes a run of a mode has.
pub fn run_length(mode: u16) -> usize {
    if mode == 5 {
        38
    } else {
        30
    }
}

/// What "nothing held" is in the bytes of a mode: 0, and -2^63 in modes 2 and 5.
pub fn nothing(mode: u16) -> i64 {
    if mode == 2 || mode == 5 {
        -9_223_372_036_854_775_808
    } else {
        0
    }
}

/// Log D: "open 0 value 10 floor 0 ceiling 100; open 1 value 5 floor 0 ceiling 4;
/// close 1; open 1 value -3 floor 0 ceiling 100; close 1; close 0".
pub fn log_d() -> Vec<Vec<u8>> {
    vec![open(0, 10, 0, 100), open(1, 5, 0, 4), close(1), open(1, -3, 0, 100), close(1), close(0)]
}

/// A well-formed log of 65,536 bytes: the first record takes 10 + 6, each of the 4,095
/// that it holds 16, and 4,096 × 16 = 65,536. All have one gram.
pub fn longest_log() -> Vec<u8> {
    let held = [short(1, 1), close(1)].concat().repeat(4095);
    let log = [short(0, 1), held, close(0)].concat();
    assert_eq!(log.len(), 65_536);
    log
}

/// Whole logs to ask 2, 3 and 7 to 11 of: each has one fault or more, with the number that it
/// gets. None has 9: at most 6,553 opens of 10 bytes fit 65,536.
pub fn faulty_logs() -> Vec<(Vec<u8>, u8)> {
    let long = longest_log();
    let unreadable = close(64);
    let two_days = [short(0, 1), close(0), short(0, 1), close(0)].concat();
    let gap = [short(0, 1), short(0, 1)].concat();
    vec![
        (vec![], 10),
        // 7 alone; with 8; with 11; with both.
        ([short(0, 1), short(2, 1), close(2), close(0)].concat(), 7),
        ([two_days.clone(), close(0)].concat(), 7),
        (gap.clone(), 7),
        ([two_days.clone(), short(1, 1)].concat(), 7),
        // 8 alone; with 11.
        (two_days.clone(), 8),
        ([short(0, 1), close(0), short(0, 1)].concat(), 8),
        // 11 at the begin, at the end, and at both.
        ([short(1, 1), close(1), close(0)].concat(), 11),
        (short(0, 1), 11),
        (close(1), 11),
        // 3 with 7, with 8, with 11; alone.
        ([gap.clone(), unreadable.clone()].concat(), 3),
        ([two_days.clone(), unreadable.clone()].concat(), 3),
        ([unreadable.clone(), close(1)].concat(), 3),
        ([short(0, 1), close(0), vec![6]].concat(), 3),
        (vec![0; 65_536], 3),
        // 2 alone: 4,097 opened records.
        ([short(0, 1), [short(1, 1), close(1)].concat().repeat(4096), close(0)].concat(), 2),
        // 2 with 3; with 7; with 8; with 11: 65,536 bytes before the last ones.
        (vec![0; 65_537], 2),
        ([long.clone(), vec![0]].concat(), 2),
        ([long.clone(), gap].concat(), 2),
        (long.repeat(2), 2),
        ([&long[..65_530], &short(1, 1)].concat(), 2),
    ]
}
