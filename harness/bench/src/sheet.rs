//! A page of the sheet, on the logs of `chunks.rs`, beside summarise in the same mode and the day's figures: every page reads the whole
//! log, whichever lines it has.

use crate::chunks::{cases, Case};
use crate::rows::micros;
use reference::record::records_of;
use std::hint::black_box;
use tulghimo::{raw, Mode};

/// How many pages a log has.
fn pages(log: &[u8]) -> u32 {
    let opened = records_of(log).expect("readable").iter().filter(|record| record.is_open()).count();
    opened.div_ceil(60) as u32
}

/// Microseconds for a page of each log, the one that is chosen among so many. It must be there.
fn page_time(logs: &[Vec<u8>], mode: Mode, choose: impl Fn(u32) -> u32) -> f64 {
    let mut out = [0; raw::LONGEST_PAGE];
    let chosen: Vec<u32> = logs.iter().map(|log| choose(pages(log))).collect();
    for (log, &page) in logs.iter().zip(&chosen) {
        assert!(raw::sheet(log, mode.number(), page, &mut out) > 0, "page {page}");
    }
    micros(|k| {
        black_box(raw::sheet(black_box(&logs[k]), mode.number(), chosen[k], &mut out));
    })
}

/// The first page, one in the middle and the last; then summarise in the same mode, and the day's figures.
fn times(case: &Case, mode: Mode) -> [f64; 5] {
    let logs = &case.logs;
    let mut out = vec![0; raw::LONGEST_SUMMARY];
    let mut figures = [0; 4];
    let summarise = micros(|k| {
        black_box(raw::summarise(black_box(&logs[k]), mode.number(), &mut out));
    });
    let day = micros(|k| {
        black_box(raw::day(black_box(&logs[k]), &mut figures));
        black_box(figures);
    });
    let first = page_time(logs, mode, |_| 0);
    let middle = page_time(logs, mode, |count| count / 2);
    let last = page_time(logs, mode, |count| count - 1);
    [first, middle, last, summarise, day]
}

fn head(name: &str) {
    println!("\n| {name} | first page | a middle page | last page | summarise | day |\n|---|---|---|---|---|---|");
}

fn row(name: &str, cells: impl Iterator<Item = f64>, places: usize) {
    println!("| {name} | {} |", cells.map(|cell| format!("{cell:.places$}")).collect::<Vec<_>>().join(" | "));
}

/// Two tables: nanoseconds for a record, opens and closes alike, a row for each kind of log, in mode 5; and microseconds for a farm's
/// day, a row for each mode.
pub fn bench() {
    head("Log, mode 5, ns a record");
    let cases = cases();
    for case in &cases {
        row(&case.name, times(case, Mode::Eaten).map(|micros| case.nanos_a_record(micros)).into_iter(), 1);
    }
    head("Farm day, mode, µs");
    let farm = cases.last().expect("a farm's day");
    for mode in Mode::ALL {
        row(&mode.number().to_string(), times(farm, mode).into_iter(), 1);
    }
}

#[cfg(test)]
mod tests {
    use super::*;

    #[test]
    fn there_is_a_first_a_middle_and_a_last_page() {
        for log in cases().iter().flat_map(|case| &case.logs) {
            let count = pages(log);
            assert!(count > 30, "{count}");
            let mut out = [0; raw::LONGEST_PAGE];
            let lengths = [0, count / 2, count - 1, count].map(|page| raw::sheet(log, 1, page, &mut out));
            assert!(lengths[0] == 1620 && lengths[1] == 1620 && lengths[2] > 0 && lengths[3] == -18, "{lengths:?}");
        }
    }
}
