//! The calls under test, and what each is given.

use compare::agree::{self, State};
use reference::bytes::{signed, unsigned};
use reference::farms::FARMS_STATE;
use reference::ledger::Call as FarmCall;
use std::fmt;

/// What a call takes.
#[derive(Clone, Copy, Debug, PartialEq, Eq)]
pub enum Takes {
    /// A chunk of a log, perhaps the whole of it, and a mode for the call that wants one.
    Chunk,
    /// One piece.
    Piece,
    /// Two pieces.
    Pieces,
    /// A row as one slice.
    Row,
    /// A day table.
    Table,
    /// Two chunks that differ in batches only, and a mode.
    Twins,
    /// A log and the row of its chunks, some summarised while short records had the old floor; and the row's mode.
    SentBefore,
    /// A number n, and the length of a buffer.
    Number,
    /// A run, and an outer figure.
    Run,
    /// A log, a mode and a page.
    Page,
    /// A log and two record numbers.
    Pair,
    /// A mode and a valley station's state.
    Fresh,
    /// A state, a farm and what is sent for it.
    Send,
    /// A state, a farm and the length of a buffer.
    EndOfDay,
    /// Two runs of farms' calls, and a mode.
    TwoRuns,
}

impl Takes {
    /// Whether the first bytes are a state.
    fn a_state(self) -> bool {
        matches!(self, Takes::Fresh | Takes::Send | Takes::EndOfDay)
    }
}

/// What a call is given. `second` is the right one of two pieces, the other of two chunks, the row of a log, an outer figure, 64 bits,
/// a page, 32 bits, two record numbers of 32 bits, a summary that is sent, the length of a buffer, 16 bits, or the second of two runs,
/// and empty elsewhere. An n or a farm stands in place of the mode, and in place of a chunk the length of a buffer, 16 bits, a state or
/// the first of two runs.
#[derive(Clone, Debug, PartialEq, Eq)]
pub struct Input {
    pub takes: Takes,
    pub mode: u32,
    pub first: Vec<u8>,
    pub second: Vec<u8>,
}

/// A call: its name, what it takes, the refusals that it can give, in the order in which they are asked, and its comparison with the
/// reference, which gives the library's answers.
pub struct Call {
    pub name: &'static str,
    pub takes: Takes,
    pub refuses: &'static [usize],
    pub compare: fn(&Input) -> Vec<i64>,
}

/// Every call of the library; then what all that take a chunk, but reading, must do with batches, which is to ignore them; what a row
/// must come to in which summaries carry the old floor of short records; and last what a farm is told in two runs in which its calls are
/// the same.
pub const CALLS: &[Call] = &[
    Call { name: "read_record", takes: Takes::Chunk, refuses: &[3], compare: |given| agree::read_record(&given.first) },
    Call {
        name: "summarise",
        takes: Takes::Chunk,
        refuses: &[1, 2, 3, 12],
        compare: |given| agree::summarise(&given.first, given.mode),
    },
    Call { name: "merge", takes: Takes::Pieces, refuses: &[5, 6, 12], compare: |given| agree::merge(&given.first, &given.second) },
    Call { name: "merge_row", takes: Takes::Row, refuses: &[4, 5, 6, 12], compare: |given| agree::merge_row(&given.first) },
    Call { name: "plan", takes: Takes::Row, refuses: OF_PLAN_AND_RUNS, compare: |given| agree::plan(&given.first) },
    Call { name: "runs", takes: Takes::Row, refuses: OF_PLAN_AND_RUNS, compare: |given| agree::runs(&given.first) },
    Call { name: "work", takes: Takes::Row, refuses: &[4, 5, 6, 7, 8, 9, 10, 11], compare: |given| agree::work(&given.first) },
    Call { name: "finish", takes: Takes::Piece, refuses: &[5, 7, 8, 9, 10, 11], compare: |given| agree::finish(&given.first) },
    Call { name: "day", takes: Takes::Chunk, refuses: &[2, 3, 7, 8, 10, 11], compare: |given| agree::day(&given.first) },
    Call { name: "write_log", takes: Takes::Table, refuses: &[2, 3, 13, 10, 12], compare: |given| agree::write_log(&given.first) },
    Call {
        name: "read_table",
        takes: Takes::Chunk,
        refuses: &[2, 3, 7, 8, 10, 11, 12],
        compare: |given| agree::read_table(&given.first),
    },
    Call {
        name: "small_days",
        takes: Takes::Number,
        refuses: &[14, 12],
        compare: |given| agree::small_days(given.mode, unsigned(&given.first) as usize),
    },
    Call {
        name: "backwards",
        takes: Takes::Run,
        refuses: &[15, 16, 17],
        compare: |given| agree::backwards(&given.first, signed(&given.second)),
    },
    Call {
        name: "heaviest_line",
        takes: Takes::Chunk,
        refuses: &[2, 3, 7, 8, 10, 11, 12],
        compare: |given| agree::heaviest_line(&given.first),
    },
    Call {
        name: "sheet",
        takes: Takes::Page,
        refuses: &[1, 2, 3, 7, 8, 10, 11, 18, 12],
        compare: |given| agree::sheet(&given.first, given.mode, unsigned(&given.second) as u32),
    },
    Call {
        name: "common",
        takes: Takes::Pair,
        refuses: &[2, 3, 7, 8, 10, 11, 19],
        compare: |given| {
            let [a, b] = record_numbers(&given.second);
            agree::common(&given.first, a, b)
        },
    },
    Call {
        name: "farms_fresh",
        takes: Takes::Fresh,
        refuses: &[1],
        compare: |given| agree::farms_fresh(given.mode, &mut state(&given.first)),
    },
    Call {
        name: "farms_send",
        takes: Takes::Send,
        refuses: &[20, 5, 6, 21],
        compare: |given| agree::farms_send(&mut state(&given.first), given.mode, &given.second),
    },
    Call {
        name: "farms_end_of_day",
        takes: Takes::EndOfDay,
        // 5 where a slot that no call wrote holds no summary.
        refuses: &[20, 5, 12],
        compare: |given| agree::farms_end_of_day(&mut state(&given.first), given.mode, unsigned(&given.second) as usize),
    },
    Call {
        name: "batches",
        takes: Takes::Twins,
        refuses: &[1, 3, 7, 8, 10, 11, 19],
        compare: |given| agree::batches_only(&given.first, &given.second, given.mode),
    },
    Call {
        name: "sent_before",
        takes: Takes::SentBefore,
        refuses: &[7, 8, 10, 11],
        compare: |given| agree::sent_before(&given.first, &given.second, given.mode as u16),
    },
    Call {
        name: "two_runs",
        takes: Takes::TwoRuns,
        refuses: &[20, 5, 6, 21, 12],
        compare: |given| agree::two_runs(given.mode, [&farm_calls(&given.first), &farm_calls(&given.second)]),
    },
];

fn state(bytes: &[u8]) -> State {
    bytes.try_into().expect("the bytes of a state")
}

/// The bytes of a run: for each call 1 and the farm, 32 bits, the length of what is sent, likewise, and this; or 2, the farm and the
/// length of the buffer.
pub fn run_bytes(run: &[FarmCall]) -> Vec<u8> {
    let head = |kind: u8, farm: u32, length: usize| [&[kind][..], &farm.to_le_bytes(), &(length as u32).to_le_bytes()].concat();
    let bytes = |call: &FarmCall| match call {
        FarmCall::Send { farm, summary } => [&head(1, *farm, summary.len())[..], summary].concat(),
        FarmCall::EndOfDay { farm, capacity } => head(2, *farm, *capacity),
    };
    run.iter().flat_map(bytes).collect()
}

/// The run that `run_bytes` wrote.
pub fn farm_calls(mut bytes: &[u8]) -> Vec<FarmCall> {
    let mut run = Vec::new();
    while !bytes.is_empty() {
        let (head, rest) = bytes.split_at(9);
        let (farm, length) = (unsigned(&head[1..5]) as u32, unsigned(&head[5..]) as usize);
        let (summary, rest) = rest.split_at(if head[0] == 1 { length } else { 0 });
        let summary = summary.to_vec();
        run.push(if head[0] == 1 { FarmCall::Send { farm, summary } } else { FarmCall::EndOfDay { farm, capacity: length } });
        bytes = rest;
    }
    run
}

/// Two record numbers of four bytes each.
pub fn record_numbers(bytes: &[u8]) -> [u32; 2] {
    let (a, b) = bytes.split_at(bytes.len().min(4));
    [a, b].map(|number| unsigned(number) as u32)
}

/// "plan and runs 4 to 12"
const OF_PLAN_AND_RUNS: &[usize] = &[4, 5, 6, 7, 8, 9, 10, 11, 12];

/// The words that `--replay` takes after the call's name.
impl fmt::Display for Input {
    fn fmt(&self, f: &mut fmt::Formatter<'_>) -> fmt::Result {
        write!(f, "{} {} {}", self.mode, hex(&self.first), hex(&self.second))
    }
}

/// Bytes as two digits each; a dash for none.
fn hex(bytes: &[u8]) -> String {
    if bytes.is_empty() {
        return "-".into();
    }
    bytes.iter().map(|byte| format!("{byte:02x}")).collect()
}

/// What `hex` wrote.
fn unhex(text: &str) -> Option<Vec<u8>> {
    if text == "-" {
        return Some(Vec::new());
    }
    let pairs = text.as_bytes().chunks(2);
    pairs.map(|pair| u8::from_str_radix(std::str::from_utf8(pair).ok()?, 16).ok()).collect()
}

/// The call and the input that the words after `--replay` name.
pub fn replayed(words: &[String]) -> Option<(&'static Call, Input)> {
    let [name, mode, first, second] = words else {
        return None;
    };
    let call = CALLS.iter().find(|call| call.name == name)?;
    let input = Input { takes: call.takes, mode: mode.parse().ok()?, first: unhex(first)?, second: unhex(second)? };
    (!input.takes.a_state() || input.first.len() == FARMS_STATE).then_some((call, input))
}

#[cfg(test)]
mod tests {
    use super::*;

    #[test]
    fn what_is_printed_can_be_replayed() {
        for first in [vec![], vec![0], vec![0x0a, 0xff, 7]] {
            let input = Input { takes: Takes::Chunk, mode: 65_537, first, second: vec![] };
            let words: Vec<String> = format!("summarise {input}").split(' ').map(String::from).collect();
            let (call, read) = replayed(&words).expect("a call and its input");
            assert_eq!((call.name, read), ("summarise", input));
        }
        assert!(replayed(&["summarise".into(), "1".into(), "0g".into(), "-".into()]).is_none());
        assert!(replayed(&["none".into(), "1".into(), "-".into(), "-".into()]).is_none());
    }

    #[test]
    fn a_state_has_as_many_bytes_as_it_must() {
        let words = |length| ["farms_fresh".into(), "5".into(), hex(&vec![0x1f; length]), "-".into()];
        let (call, input) = replayed(&words(FARMS_STATE)).expect("a call and its input");
        assert_eq!((call.compare)(&input), [0]);
        assert!([0, FARMS_STATE - 1, FARMS_STATE + 1].iter().all(|&length| replayed(&words(length)).is_none()));
    }

    #[test]
    fn a_run_is_read_from_its_bytes() {
        let send = |farm, length| FarmCall::Send { farm, summary: vec![7; length] };
        let end = |farm, capacity| FarmCall::EndOfDay { farm, capacity };
        for run in [vec![], vec![end(7, 1788)], vec![send(0, 0), end(0, 0), send(u32::MAX, 70_000), send(1, 1), end(1 << 31, 6)]] {
            assert_eq!(farm_calls(&run_bytes(&run)), run);
        }
    }
}
