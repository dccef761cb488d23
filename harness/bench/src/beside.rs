//! Summarise and day beside the recursion in C, log by log in turns.

use crate::chunks::{cases, Case};
use crate::peer;
use reference::record::records_of;
use std::hint::black_box;
use std::time::Instant;
use tulghimo::{raw, Mode};

const ROUNDS: usize = 200;

/// What is timed: summarise in each mode, and day.
const CALLS: [&str; 5] = ["summarise 1", "2", "5", "4", "day"];

fn seconds(call: impl FnOnce()) -> f64 {
    let start = Instant::now();
    call();
    start.elapsed().as_secs_f64()
}

/// The library's call on a log; `out` is lent for a summary.
fn library(call: usize, log: &[u8], out: &mut [u8]) {
    if let Some(mode) = Mode::ALL.get(call) {
        black_box(raw::summarise(black_box(log), mode.number(), out));
    } else {
        let mut figures = [0; 4];
        black_box(raw::day(black_box(log), &mut figures));
        black_box(figures);
    }
}

/// The recursion for the same figure, or for all four.
fn recursion(call: usize, log: &[u8]) {
    if let Some(&mode) = Mode::ALL.get(call) {
        black_box(peer::figure(black_box(log), mode));
    } else {
        black_box(peer::figures(black_box(log)));
    }
}

/// Both on one log, the one or the other first.
fn both(call: usize, log: &[u8], out: &mut [u8], library_first: bool) -> [f64; 2] {
    if library_first {
        let first = seconds(|| library(call, log, out));
        return [first, seconds(|| recursion(call, log))];
    }
    let first = seconds(|| recursion(call, log));
    [seconds(|| library(call, log, out)), first]
}

/// Every answer of the one is the other's.
fn check(log: &[u8], out: &mut [u8]) {
    let mut all = [0; 4];
    assert_eq!(raw::day(log, &mut all), 0);
    assert_eq!(peer::figures(log), Some(all));
    for (mode, of_day) in Mode::ALL.into_iter().zip(all) {
        let length = raw::summarise(log, mode.number(), out);
        let mut figure = [0];
        assert_eq!(raw::finish(&out[..length as usize], &mut figure), 0);
        assert_eq!((figure[0], peer::figure(log, mode)), (of_day, Some(of_day)));
    }
}

/// Of one call on the logs of one kind: the best seconds of each log, the library's and the recursion's.
struct Cell {
    best: Vec<[f64; 2]>,
}

impl Cell {
    fn new(case: &Case) -> Cell {
        Cell { best: vec![[f64::MAX; 2]; case.logs.len()] }
    }

    /// One round; it answers the seconds of all logs.
    fn round(&mut self, call: usize, case: &Case, out: &mut [u8], round: usize) -> [f64; 2] {
        let mut sum = [0.0; 2];
        for (place, (log, best)) in case.logs.iter().zip(&mut self.best).enumerate() {
            let times = both(call, log, out, (round ^ place) & 1 == 0);
            for side in 0..2 {
                sum[side] += times[side];
                best[side] = best[side].min(times[side]);
            }
        }
        sum
    }

    fn seconds(&self, side: usize) -> f64 {
        self.best.iter().map(|times| times[side]).sum()
    }

    /// How many times as fast as the recursion the library is.
    fn ratio(&self) -> f64 {
        self.seconds(1) / self.seconds(0)
    }
}

/// From the lowest to the highest, leaving out as many per cent at each end.
fn range(mut ratios: Vec<f64>, per_cent: usize) -> String {
    ratios.sort_by(f64::total_cmp);
    let out = ratios.len() * per_cent / 100;
    format!("{:.2} to {:.2}", ratios[out], ratios[ratios.len() - 1 - out])
}

fn row(name: &str, cells: impl Iterator<Item = String>) {
    println!("| {name} | {} |", cells.collect::<Vec<_>>().join(" | "));
}

/// A table: how many times as fast as the recursion, and the library's nanoseconds for a record.
pub fn bench() {
    let cases = cases();
    let mut out = vec![0; raw::LONGEST_SUMMARY];
    cases.iter().flat_map(|case| &case.logs).for_each(|log| check(log, &mut out));
    let mut cells: Vec<Vec<Cell>> = cases.iter().map(|case| CALLS.map(|_| Cell::new(case)).into()).collect();
    let mut rounds = vec![Vec::new(); CALLS.len()];
    for round in 0..ROUNDS {
        for (call, ratios) in rounds.iter_mut().enumerate() {
            let mut sum = [0.0; 2];
            for (case, cells) in cases.iter().zip(&mut cells) {
                let times = cells[call].round(call, case, &mut out, round);
                sum = [sum[0] + times[0], sum[1] + times[1]];
            }
            ratios.push(sum[1] / sum[0]);
        }
    }
    row("Log", CALLS.iter().map(ToString::to_string));
    println!("|---|---|---|---|---|---|");
    for (case, cells) in cases.iter().zip(&cells) {
        let records: usize = case.logs.iter().map(|log| records_of(log).expect("readable").len()).sum();
        let cell = |cell: &Cell| format!("{:.2} ({:.1})", cell.ratio(), cell.seconds(0) * 1e9 / records as f64);
        row(&case.name, cells.iter().map(cell));
    }
    row("logs, lowest to highest", (0..CALLS.len()).map(|call| range(cells.iter().map(|cells| cells[call].ratio()).collect(), 0)));
    row("rounds, all logs, 5 % to 95 %", rounds.into_iter().map(|ratios| range(ratios, 5)));
}
