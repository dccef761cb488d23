//! The log written from a day table of 2,730 lines, the most that there can be, and the table read back from that log; on 48 different
//! tables of each shape.

use crate::chunks::many;
use crate::rows::micros;
use reference::gen::logs::{open, Values};
use reference::gen::tables::MOST_LINES;
use reference::gen::Rng;
use reference::table::encode_table;
use std::hint::black_box;
use tulghimo::raw;

/// A table whose lines go down to a depth, fall back to depth 1, and so on.
fn table(rng: &mut Rng, deepest: usize) -> Vec<u8> {
    let held = (1..=deepest).cycle().take(MOST_LINES - 1);
    encode_table(&[0].into_iter().chain(held).map(|depth| open(rng, depth, Values::Small)).collect::<Vec<_>>())
}

/// Nanoseconds for a line: of the log written, and of the table read back.
fn there_and_back(deepest: usize) -> [f64; 2] {
    let tables = many(|rng| table(rng, deepest));
    let mut out = vec![0; raw::LONGEST_LOG_WRITTEN];
    let logs: Vec<Vec<u8>> = tables.iter().map(|table| log_of(table, &mut out)).collect();
    let written = micros(|k| {
        black_box(raw::write_log(black_box(&tables[k]), &mut out));
    });
    let read = micros(|k| {
        black_box(raw::read_table(black_box(&logs[k]), &mut out));
    });
    [written, read].map(|micros| micros * 1e3 / MOST_LINES as f64)
}

/// The log of a table. It must give the table again.
fn log_of(table: &[u8], out: &mut [u8]) -> Vec<u8> {
    let length = raw::write_log(table, out);
    let log = out[..length as usize].to_vec();
    let length = raw::read_table(&log, out);
    assert_eq!(&out[..length as usize], table);
    log
}

/// A table in nanoseconds for a line, a row for each shape.
pub fn bench() {
    println!("\n| 2,730 lines, ns a line | log written | table read back |\n|---|---|---|");
    for (name, deepest) in [("depth 1", 1), ("depth 5", 5), ("depth 63", 63)] {
        let [written, read] = there_and_back(deepest);
        println!("| {name} | {written:.1} | {read:.1} |");
    }
}

#[cfg(test)]
mod tests {
    use super::*;

    #[test]
    fn tables_are_as_long_as_can_be_and_different() {
        for deepest in [1, 5, 63] {
            let tables = many(|rng| table(rng, deepest));
            assert!(tables.iter().all(|table| table.len() == raw::LONGEST_TABLE_TAKEN));
            assert!(tables[0] != tables[1]);
            let log = log_of(&tables[0], &mut vec![0; raw::LONGEST_LOG_WRITTEN]);
            assert_eq!(log.len(), raw::LONGEST_LOG_WRITTEN);
        }
    }
}
