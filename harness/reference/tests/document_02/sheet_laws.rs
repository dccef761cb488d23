//! L9 as laws: the pages put together have one line a record; each figure is the tally of the
//! record's subtree cut out as a log of its own, and follows from the lines of those that it holds;
//! and what makes no difference. Of every small log and of random ones. `compare` puts this to the
//! library.

use crate::calls::{day, finish, heaviest_line, merge_row, read_table, sheet, small_days, summarise};
use crate::sheet::text;
use reference::gen::logs::{all_shapes, any_log, cut, encode_mixed, in_full, log_or_faulty, of_shape, rebatched};
use reference::gen::logs::{Values, OLD_FLOOR};
use reference::gen::pages::{page, paged_log};
use reference::gen::raw::{in_mode, MODES};
use reference::gen::Rng;
use reference::log::{closer, held, opened, opens};
use reference::record::{encode_all, records_of, Open, Record};
use reference::tree::open_at;

/// No page is longer.
const AMPLE: usize = 1620;

/// All pages of a log's sheet, from the first to the one before that which gets 18.
pub fn pages(log: &[u8], mode: u16) -> Result<Vec<Vec<u8>>, u8> {
    let mut pages = Vec::new();
    // At most 4,096 records, on 69 pages.
    for number in 0..=69 {
        match sheet(log, mode.into(), number, AMPLE) {
            Ok(page) => pages.push(page),
            Err(18) if number > 0 => return Ok(pages),
            Err(refusal) => return Err(refusal),
        }
    }
    panic!("more than 69 pages");
}

/// A line read back: the record's number, its depth and its figure.
type Line = (i64, i64, i64);

/// The lines of a log's sheet, all pages put together. Written again they are the same bytes.
fn lines(log: &[u8], mode: u16) -> Vec<Line> {
    let bytes = pages(log, mode).expect("a well-formed log").concat();
    let columns = |line: &[u8], from: usize, to: usize| {
        std::str::from_utf8(&line[from..to]).expect("text").trim_start_matches(' ').parse().expect("a number")
    };
    let lines: Vec<Line> = bytes.chunks(27).map(|line| (columns(line, 0, 6), columns(line, 7, 9), columns(line, 10, 26))).collect();
    assert_eq!(text(&lines), bytes);
    lines
}

/// The figures of a log's sheet, in log order.
pub fn figures(log: &[u8], mode: u16) -> Vec<i64> {
    lines(log, mode).into_iter().map(|(_, _, figure)| figure).collect()
}

/// The record opened at a place, to its close, as a log of its own: its depths lowered.
pub fn cut_out(log: &[Record], place: usize) -> Vec<Record> {
    let last = closer(log, place).expect("a record that is closed");
    let above = log[place].depth();
    let lowered = |record: &Record| match record {
        Record::Open(open) => Record::Open(Open { depth: open.depth - above, ..*open }),
        Record::Close { depth } => Record::Close { depth: depth - above },
    };
    log[place..=last].iter().map(lowered).collect()
}

/// What finish gives for a log, in one chunk and cut in two in its middle.
fn finished(rng: &mut Rng, log: &[Record], mode: u16) -> [Result<i64, u8>; 2] {
    let mut summary = |chunk: &[Record]| summarise(&encode_mixed(rng, chunk), mode.into(), 1788).expect("readable records");
    let whole = summary(log);
    let middle = log.len() / 2;
    let row = [summary(&log[..middle]), summary(&log[middle..])].concat();
    [finish(&whole), finish(&merge_row(&row, 1788).expect("two summaries"))]
}

#[test]
fn pages_put_together_have_one_line_a_record() {
    let mut rng = Rng::new(0x911);
    for _ in 0..100 {
        let log = paged_log(&mut rng);
        let bytes = encode_mixed(&mut rng, &log);
        let count = opened(&log) as usize;
        for mode in MODES {
            let pages = pages(&bytes, mode).expect("a well-formed log");
            let (last, others) = pages.split_last().expect("a page");
            assert!(others.iter().all(|page| page.len() == 27 * 60));
            assert!((27..=27 * 60).contains(&last.len()) && last.len().is_multiple_of(27));
            assert_eq!(pages.concat().len(), 27 * count);
            // "counted from 0", and with the depths of the opened records.
            let due = (0..).zip(opens(&log)).map(|(number, place)| (number, log[place].depth() as i64));
            let lines = lines(&bytes, mode);
            assert!(lines.iter().map(|&(number, depth, _)| (number, depth)).eq(due));
        }
    }
}

#[test]
fn each_figure_is_the_tally_of_its_own_subtree() {
    let mut rng = Rng::new(0x912);
    for round in 0..200 {
        let log = if round % 4 == 0 { paged_log(&mut rng) } else { any_log(&mut rng, 40) };
        let bytes = encode_mixed(&mut rng, &log);
        let sheets = MODES.map(|mode| figures(&bytes, mode));
        // Of a long log some records.
        let step = 1 + opens(&log).len() / 60;
        for (number, place) in opens(&log).into_iter().enumerate().step_by(step) {
            let own = cut_out(&log, place);
            let own_bytes = encode_mixed(&mut rng, &own);
            let due = day(&own_bytes).expect("a well-formed log");
            for mode in MODES {
                let figure = in_mode(mode, [0, 1, 2, 3].map(|place| sheets[place][number]));
                assert_eq!(figure, in_mode(mode, due), "mode {mode}, record {number}");
                assert_eq!(finished(&mut rng, &own, mode), [Ok(figure); 2], "mode {mode}, record {number}");
            }
        }
    }
}

#[test]
fn the_sheet_of_a_subtree_is_a_stretch_of_the_sheet() {
    let mut rng = Rng::new(0x913);
    for round in 0..400 {
        let log = paged_log(&mut rng);
        let mode = MODES[round % 4];
        let all = lines(&encode_mixed(&mut rng, &log), mode);
        let number = rng.below(all.len());
        let own = lines(&encode_mixed(&mut rng, &cut_out(&log, opens(&log)[number])), mode);
        // With the record's number and depth more in each line.
        let (first, depth, _) = all[number];
        let moved: Vec<Line> = own.into_iter().map(|(n, d, figure)| (n + first, d + depth, figure)).collect();
        assert_eq!(all[number..number + moved.len()], moved[..]);
    }
}

/// The figure of a record in a mode, by its value, floor and ceiling and the figures of those that
/// it holds.
fn figure(mode: u16, record: &Open, held: &[i64]) -> i64 {
    let sum = record.value + held.iter().sum::<i64>();
    match mode {
        1 => sum,
        2 => record.value + held.iter().max().unwrap_or(&0),
        4 => (record.value + 31 * held.iter().sum::<i64>()).rem_euclid(1 << 32),
        _ if held.is_empty() => record.value,
        _ => sum.max(record.floor).min(record.ceiling),
    }
}

/// Each line of a log's sheets follows from the lines of the records that this one holds.
fn assert_line_by_line(log: &[Record], bytes: &[u8]) {
    let places = opens(log);
    let number = |place| places.binary_search(&place).expect("an open record");
    for mode in MODES {
        let all = figures(bytes, mode);
        for (&place, &own) in places.iter().zip(&all) {
            let held: Vec<i64> = held(log, place).into_iter().map(|later| all[number(later)]).collect();
            assert_eq!(own, figure(mode, &open_at(log, place), &held), "mode {mode}");
        }
    }
}

#[test]
fn the_recursion_line_by_line() {
    let mut rng = Rng::new(0x914);
    for shape in (1..=7).flat_map(all_shapes) {
        for values in [Values::Small, Values::Ends] {
            let log = of_shape(&mut rng, &shape, values);
            assert_line_by_line(&log, &encode_mixed(&mut rng, &log));
        }
    }
    for _ in 0..150 {
        let log = paged_log(&mut rng);
        assert_line_by_line(&log, &encode_mixed(&mut rng, &log));
    }
}

#[test]
fn the_first_line_is_the_days_figure() {
    let mut rng = Rng::new(0x915);
    for _ in 0..500 {
        let log = paged_log(&mut rng);
        let bytes = encode_mixed(&mut rng, &log);
        let all = day(&bytes).expect("a well-formed log");
        for mode in MODES {
            let due = in_mode(mode, all);
            let first = sheet(&bytes, mode.into(), 0, AMPLE).expect("a well-formed log");
            assert_eq!(first[..27], text(&[(0, 0, due)]));
            assert_eq!(finished(&mut rng, &log, mode), [Ok(due); 2]);
        }
    }
}

#[test]
fn along_the_heaviest_line_each_value_comes_off() {
    let mut rng = Rng::new(0x916);
    for _ in 0..500 {
        let log = paged_log(&mut rng);
        let bytes = encode_mixed(&mut rng, &log);
        let all = figures(&bytes, 2);
        let values: Vec<i64> = opens(&log).into_iter().map(|place| open_at(&log, place).value).collect();
        let numbers = heaviest_line(&bytes, 256).expect("a well-formed log");
        let numbers: Vec<usize> = numbers.chunks(4).map(|n| u32::from_le_bytes(n.try_into().expect("4 bytes")) as usize).collect();
        assert!(numbers.windows(2).all(|pair| all[pair[0]] - values[pair[0]] == all[pair[1]]));
        let last = numbers[numbers.len() - 1];
        assert_eq!(all[last], values[last]);
    }
}

#[test]
fn of_all_small_days_how_many_and_how_deep() {
    // Each record has 1 gram: net counts the records of a subtree, heaviest its levels.
    for n in 1..=8 {
        for log in small_days(n, 54_912).expect("n from 1 to 8").chunks(16 * n as usize) {
            let records = records_of(log).expect("readable records");
            let own = |place| cut_out(&records, place);
            let count = |place| own(place).len() as i64 / 2;
            let levels = |place| own(place).iter().map(|record| record.depth() as i64 + 1).max().expect("a record");
            let places = opens(&records);
            for mode in [1, 5] {
                assert_eq!(figures(log, mode), places.iter().map(|&place| count(place)).collect::<Vec<_>>());
            }
            assert_eq!(figures(log, 2), places.iter().map(|&place| levels(place)).collect::<Vec<_>>());
        }
    }
}

#[test]
fn number_and_depth_are_those_of_the_table() {
    let mut rng = Rng::new(0x917);
    for round in 0..300 {
        let log = paged_log(&mut rng);
        let bytes = encode_mixed(&mut rng, &log);
        let table = read_table(&bytes, 65_520).expect("a well-formed log");
        let lines = lines(&bytes, MODES[round % 4]);
        assert_eq!(table.len(), 14 * lines.len());
        for ((number, depth, figure), line) in lines.into_iter().zip(table.chunks(14)) {
            assert_eq!(depth, i64::from(u16::from_le_bytes([line[0], line[1]])));
            // One that is followed by none that is deeper holds nothing: its figure is its value.
            let next = table.chunks(14).nth(number as usize + 1);
            if next.is_none_or(|next| u16::from_le_bytes([next[0], next[1]]) <= depth as u16) {
                let value = i64::from(i32::from_le_bytes(line[2..6].try_into().expect("4 bytes")));
                assert_eq!(figure, if round % 4 == 3 { value.rem_euclid(1 << 32) } else { value });
            }
        }
    }
}

#[test]
fn a_page_is_there_where_60_times_it_is_a_record() {
    let mut rng = Rng::new(0x918);
    let mut seen = [0; 2];
    for round in 0..3000 {
        let log = paged_log(&mut rng);
        let count = opened(&log);
        let bytes = encode_mixed(&mut rng, &log);
        let page = page(&mut rng, count as usize);
        let first = 60 * u64::from(page);
        let mode = MODES[round % 4].into();
        if first < count {
            let length = 27 * (count - first).min(60) as usize;
            assert_eq!(sheet(&bytes, mode, page, length).map(|lines| lines.len()), Ok(length));
            assert_eq!(sheet(&bytes, mode, page, length - 1), Err(12));
        } else {
            assert_eq!(sheet(&bytes, mode, page, AMPLE), Err(18), "page {page} of {count} records");
            assert_eq!(sheet(&bytes, mode, page, 26), Err(18), "page {page} of {count} records");
        }
        seen[usize::from(first < count)] += 1;
    }
    assert!(seen.iter().all(|&count| count > 1000), "{seen:?}");
}

#[test]
fn faults_get_their_numbers_as_at_finish() {
    let mut rng = Rng::new(0x919);
    let mut seen = [0; 12];
    for round in 0..2000 {
        let log = log_or_faulty(&mut rng, 20);
        let mode = MODES[round % 4];
        let count = 2 + rng.below(7);
        let chunks = cut(&mut rng, &log, count);
        let summary = |chunk: &Vec<Record>| summarise(&encode_mixed(&mut rng, chunk), mode.into(), 1788).expect("readable");
        let row: Vec<u8> = chunks.iter().flat_map(summary).collect();
        let fault = finish(&merge_row(&row, 1788).expect("2 to 8 summaries")).err();
        let bytes = encode_mixed(&mut rng, &log);
        // Whatever page is asked for, and whatever buffer is lent.
        assert_eq!(sheet(&bytes, mode.into(), 0, AMPLE).err(), fault);
        assert_eq!(sheet(&bytes, mode.into(), 0, 26).err(), fault.or(Some(12)));
        let far = [1, 1 << 30, u32::MAX].map(|page| sheet(&bytes, mode.into(), page, 26).err());
        assert_eq!(far, [fault.or(Some(18)); 3]);
        assert_eq!(sheet(&bytes, 3, 0, AMPLE), Err(1));
        seen[usize::from(fault.unwrap_or(0))] += 1;
    }
    assert!([0, 7, 8, 10, 11].iter().all(|&fault| seen[fault] > 50), "{seen:?}");
}

#[test]
fn batches_make_no_difference_and_floors_in_eaten_alone() {
    let mut rng = Rng::new(0x91a);
    let mut moved = 0;
    for _ in 0..60 {
        let log = paged_log(&mut rng);
        let bytes = encode_mixed(&mut rng, &log);
        let others = [encode_all(&log), rebatched(&mut rng, &bytes)];
        let before = in_full(&bytes, OLD_FLOOR);
        for mode in MODES {
            let due = pages(&bytes, mode);
            assert!(others.iter().all(|other| pages(other, mode) == due));
            let then = pages(&before, mode);
            assert!(mode == 5 || then == due);
            moved += usize::from(then != due);
        }
    }
    assert!(moved > 10, "{moved}");
}
