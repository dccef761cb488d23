//! What two records have in common, on the logs of `chunks.rs`, beside the day's figures. The gate reads the whole log, whichever two
//! they are; what follows goes up to the later of them.

use crate::chunks::{cases, Case};
use crate::rows::micros;
use reference::gen::Rng;
use reference::log::opened;
use reference::record::records_of;
use std::hint::black_box;
use tulghimo::raw;

/// How many records a log opens.
fn count(log: &[u8]) -> u32 {
    opened(&records_of(log).expect("readable")) as u32
}

/// Microseconds for two records of each log, which are chosen among so many. They must be there.
fn time(logs: &[Vec<u8>], mut choose: impl FnMut(u32) -> [u32; 2]) -> f64 {
    let chosen: Vec<[u32; 2]> = logs.iter().map(|log| choose(count(log))).collect();
    for (log, &[a, b]) in logs.iter().zip(&chosen) {
        assert!(raw::common(log, a, b) >= 0, "records {a} and {b}");
    }
    micros(|k| {
        let [a, b] = chosen[k];
        black_box(raw::common(black_box(&logs[k]), a, b));
    })
}

/// The first two records, the last two, two drawn at random, and the day's figures.
fn times(case: &Case) -> [f64; 4] {
    let logs = &case.logs;
    let mut figures = [0; 4];
    let mut rng = Rng::new(0xc0);
    let day = micros(|k| {
        black_box(raw::day(black_box(&logs[k]), &mut figures));
        black_box(figures);
    });
    let first = time(logs, |_| [0, 1]);
    let last = time(logs, |count| [count - 2, count - 1]);
    let drawn = time(logs, |count| [0, 0].map(|_| rng.below(count as usize) as u32));
    [first, last, drawn, day]
}

/// A table in nanoseconds for a record, opens and closes alike, a row for each kind of log.
pub fn bench() {
    println!("\n| Log, ns a record | the first two | the last two | two at random | day |\n|---|---|---|---|---|");
    for case in cases() {
        let cells = times(&case).map(|micros| format!("{:.1}", case.nanos_a_record(micros)));
        println!("| {} | {} |", case.name, cells.join(" | "));
    }
}

#[cfg(test)]
mod tests {
    use super::*;

    #[test]
    fn the_first_two_and_the_last_two_are_there() {
        for log in cases().iter().flat_map(|case| &case.logs) {
            let count = count(log);
            assert!(count > 1000, "{count}");
            let answers = [[0, 1], [count - 2, count - 1], [count - 1, count]].map(|[a, b]| raw::common(log, a, b));
            assert!(answers[0] == 0 && answers[1] >= 0 && answers[2] == -19, "{answers:?}");
        }
    }
}
