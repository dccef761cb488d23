//! L1: "Reading that log back must give the table, and a well-formed log of full records,
//! of at most 2,730 lines, must give a table that writes the same bytes." Of every small
//! table and log, and of random ones. `compare` puts this to the library.

use crate::calls::{read_table, write_log};
use reference::gen::logs::{all_shapes, any_log, encode_mixed, of_shape, open, Values};
use reference::gen::tables::{any_table, typed, MOST_LINES};
use reference::gen::Rng;
use reference::record::{encode_all, Open, Record};
use reference::table::encode_table;
use std::collections::BTreeSet;

const AMPLE: usize = 65_520;

#[test]
fn reading_the_log_back_gives_the_table() {
    let mut rng = Rng::new(0x107);
    for round in 0..2000 {
        let lines = if round % 50 == 0 { MOST_LINES } else { 1 + rng.below(60) };
        let table = encode_table(&any_table(&mut rng, lines));
        let log = write_log(&table, AMPLE).expect("a table that a log can have");
        assert_eq!(log.len(), table.len() / 14 * 24);
        assert_eq!(read_table(&log, AMPLE), Ok(table));
    }
}

#[test]
fn the_table_of_a_full_log_writes_the_same_bytes() {
    let mut rng = Rng::new(0x108);
    for round in 0..2000 {
        let records = any_log(&mut rng, if round % 50 == 0 { MOST_LINES } else { 60 });
        let full = encode_all(&records);
        let table = read_table(&full, AMPLE).expect("a well-formed log");
        assert_eq!(write_log(&table, AMPLE), Ok(full));
    }
}

#[test]
fn a_log_with_short_records_comes_back_in_full() {
    let mut rng = Rng::new(0x109);
    for _ in 0..2000 {
        let records = any_log(&mut rng, 60);
        let table = read_table(&encode_mixed(&mut rng, &records), AMPLE).expect("a well-formed log");
        assert_eq!(write_log(&table, AMPLE), Ok(encode_all(&records)));
    }
}

#[test]
fn no_two_small_logs_have_one_table() {
    // All logs with as many records and the same amounts in log order, so that a table says
    // only how they are nested.
    for opened in 1..=7 {
        let shapes = all_shapes(opened);
        let mut tables = BTreeSet::new();
        for shape in &shapes {
            let log = encode_all(&of_shape(&mut Rng::new(0x10a), shape, Values::Small));
            let table = read_table(&log, AMPLE).expect("a well-formed log");
            assert_eq!(write_log(&table, AMPLE), Ok(log));
            tables.insert(table);
        }
        assert_eq!(tables.len(), shapes.len());
    }
}

/// The depths of the opened records, in log order.
fn depths(log: &[Record]) -> Vec<usize> {
    log.iter().filter(|record| record.is_open()).map(Record::depth).collect()
}

/// All sequences of so many depths, each below `deepest`.
fn all_sequences(count: usize, deepest: usize) -> Vec<Vec<usize>> {
    let mut sequences = vec![Vec::new()];
    for _ in 0..count {
        let longer = |begun: &Vec<usize>| (0..deepest).map(|depth| [&begun[..], &[depth]].concat()).collect::<Vec<_>>();
        sequences = sequences.iter().flat_map(longer).collect();
    }
    sequences
}

#[test]
fn just_the_depths_that_a_log_has_are_taken() {
    // A log of so many records is less deep than they are many: a line that is deeper gets 13.
    let mut rng = Rng::new(0x10b);
    for count in 1..=6 {
        let of_a_log: BTreeSet<Vec<usize>> =
            all_shapes(count).iter().map(|shape| depths(&of_shape(&mut rng, shape, Values::Small))).collect();
        for sequence in all_sequences(count, count + 1) {
            let lines: Vec<Open> = sequence.iter().map(|&depth| open(&mut rng, depth, Values::Ends)).collect();
            let refusal = write_log(&encode_table(&lines), 24 * count).err();
            assert_eq!(refusal, if of_a_log.contains(&sequence) { None } else { Some(13) }, "{sequence:?}");
        }
    }
}

#[test]
fn every_length_around_the_longest() {
    let mut rng = Rng::new(0x10c);
    for lines in MOST_LINES - 2..=MOST_LINES + 2 {
        let table = encode_table(&typed(&mut rng, lines));
        let written = write_log(&table, AMPLE);
        assert_eq!(written.as_ref().err(), if lines > MOST_LINES { Some(&2) } else { None });
        if let Ok(log) = written {
            assert_eq!(read_table(&log, AMPLE), Ok(table));
        }
    }
}
