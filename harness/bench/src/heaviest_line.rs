//! The records behind the heaviest line, on the logs of `chunks.rs`, beside the other calls on a whole log.

use crate::chunks::{cases, Case};
use crate::rows::micros;
use std::hint::black_box;
use tulghimo::raw;

/// The length of a log's line, in records. It must be taken.
fn line_length(log: &[u8]) -> usize {
    let length = raw::heaviest_line(log, &mut [0; raw::LONGEST_HEAVIEST_LINE]);
    assert!(length > 0, "{length}");
    length as usize / 4
}

/// Nanoseconds for a record, opens and closes alike: of the line, of the day's figures and of the table read back.
fn times(case: &Case) -> [f64; 3] {
    let logs = &case.logs;
    let mut out = vec![0; raw::LONGEST_TABLE_READ];
    let mut figures = [0; 4];
    let line = micros(|k| {
        black_box(raw::heaviest_line(black_box(&logs[k]), &mut out));
    });
    let day = micros(|k| {
        black_box(raw::day(black_box(&logs[k]), &mut figures));
        black_box(figures);
    });
    let table = micros(|k| {
        black_box(raw::read_table(black_box(&logs[k]), &mut out));
    });
    [line, day, table].map(|micros| case.nanos_a_record(micros))
}

/// A table in nanoseconds for a record, a row for each kind of log; and the records of a line, on average.
pub fn bench() {
    println!("\n| Log, ns a record | heaviest line | day | table read back | records of a line |\n|---|---|---|---|---|");
    for case in cases() {
        let [line, day, table] = times(&case);
        let length = case.logs.iter().map(|log| line_length(log)).sum::<usize>() as f64 / case.logs.len() as f64;
        println!("| {} | {line:.1} | {day:.1} | {table:.1} | {length:.0} |", case.name);
    }
}

#[cfg(test)]
mod tests {
    use super::*;
    use reference::record::records_of;

    #[test]
    fn the_longest_lines_go_as_deep_as_the_logs() {
        for case in cases() {
            let deepest = case.logs.iter().flat_map(|log| records_of(log).expect("readable")).map(|record| record.depth()).max();
            let longest = case.logs.iter().map(|log| line_length(log)).max();
            assert_eq!(longest, deepest.map(|depth| depth + 1), "{}", case.name);
        }
    }
}
