//! L2: "Figures and summaries ignore it, so two logs, both taken, that differ in batches
//! only have equal summaries." Of random logs and cuts, where one record may have length
//! 18 and the other 22. `compare` puts this to the library.

use crate::calls::{common, day, heaviest_line, merge_row, plan, read_record, read_table, runs, summarise, work, write_log};
use crate::sheet_laws::pages;
use reference::gen::logs::{any_log, batch, cut, encode_mixed, log_or_faulty, rebatched};
use reference::gen::raw::{batched, close, open, short, MODES};
use reference::gen::Rng;
use reference::record::{encode_all, Record, DEFAULT_CEILING, DEFAULT_FLOOR};

const AMPLE: usize = 65_520;

#[test]
fn summaries_figures_and_tables_are_equal() {
    let mut rng = Rng::new(0x211);
    for _ in 0..1500 {
        let chunk = encode_all(&log_or_faulty(&mut rng, 60));
        for _ in 0..2 {
            let other = rebatched(&mut rng, &chunk);
            for mode in MODES {
                assert_eq!(summarise(&other, mode.into(), AMPLE), summarise(&chunk, mode.into(), AMPLE));
                assert_eq!(pages(&other, mode), pages(&chunk, mode));
            }
            assert_eq!(day(&other), day(&chunk));
            assert_eq!(read_table(&other, AMPLE), read_table(&chunk, AMPLE));
            assert_eq!(heaviest_line(&other, AMPLE), heaviest_line(&chunk, AMPLE));
            assert_eq!(common(&other, 1, 2), common(&chunk, 1, 2));
        }
    }
}

#[test]
fn rows_plans_runs_and_work_are_equal() {
    let mut rng = Rng::new(0x212);
    for _ in 0..500 {
        let log = log_or_faulty(&mut rng, 60);
        let count = 2 + rng.below(8);
        let chunks: Vec<Vec<u8>> = cut(&mut rng, &log, count).iter().map(|chunk| encode_mixed(&mut rng, chunk)).collect();
        let others: Vec<Vec<u8>> = chunks.iter().map(|chunk| rebatched(&mut rng, chunk)).collect();
        for mode in MODES {
            let summary = |chunk: &Vec<u8>| summarise(chunk, mode.into(), AMPLE).expect("readable records");
            let [one, other] = [&chunks, &others].map(|chunks| chunks.iter().flat_map(summary).collect::<Vec<u8>>());
            assert_eq!(merge_row(&one, AMPLE), merge_row(&other, AMPLE));
            assert_eq!(plan(&one, AMPLE), plan(&other, AMPLE));
            assert_eq!(runs(&one, AMPLE), runs(&other, AMPLE));
            assert_eq!(work(&one), work(&other));
        }
    }
}

/// A record's bytes, of a length drawn among those that it can have, and its fields.
fn written(rng: &mut Rng, record: &Record) -> (Vec<u8>, [i64; 7]) {
    let Record::Open(opened) = record else {
        let depth = record.depth();
        return (close(depth as u16), [2, 6, depth as i64, 0, 0, 0, 0]);
    };
    let depth = opened.depth as u16;
    let [value, floor, ceiling] = [opened.value, opened.floor, opened.ceiling].map(|grams| grams as i32);
    let number = batch(rng);
    let is_default = (opened.floor, opened.ceiling) == (DEFAULT_FLOOR, DEFAULT_CEILING);
    let (bytes, length, answered) = match rng.below(3) {
        0 if is_default => (short(depth, value), 10, 0),
        1 => (open(depth, value, floor, ceiling), 18, 0),
        _ => (batched(depth, value, floor, ceiling, number), 22, i64::from(number)),
    };
    (bytes, [1, length, depth.into(), value.into(), floor.into(), ceiling.into(), answered])
}

fn bytes_of(records: &[(Vec<u8>, [i64; 7])]) -> Vec<u8> {
    records.iter().flat_map(|(bytes, _)| bytes.clone()).collect()
}

#[test]
fn every_record_is_read_with_its_own_batch() {
    let mut rng = Rng::new(0x213);
    for _ in 0..500 {
        let records: Vec<_> = any_log(&mut rng, 40).iter().map(|record| written(&mut rng, record)).collect();
        let log = bytes_of(&records);
        let mut rest = &log[..];
        for (bytes, fields) in records {
            assert_eq!(read_record(rest), Ok(fields));
            rest = &rest[bytes.len()..];
        }
    }
}

#[test]
fn the_same_bytes_come_back_where_every_open_has_length_18() {
    let mut rng = Rng::new(0x214);
    let mut same = 0;
    for _ in 0..2000 {
        let records: Vec<_> = any_log(&mut rng, 3).iter().map(|record| written(&mut rng, record)).collect();
        let log = bytes_of(&records);
        let all_18 = records.iter().all(|(_, [kind, length, ..])| *kind == 2 || *length == 18);
        let table = read_table(&log, AMPLE).expect("a well-formed log");
        let back = write_log(&table, AMPLE).expect("the table of a log");
        assert_eq!(back == log, all_18);
        same += usize::from(all_18);
    }
    assert!((200..1800).contains(&same), "{same}");
}
