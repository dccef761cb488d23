//! Merging, the plan, the runs and the work, on 48 different rows each. Merging is timed beside summarising one full chunk, a random and a
//! regular one: 64 full hills are to take less.

use crate::chunks::{farm_day, many, random, Records, COUNT};
use reference::gen::forged::{self, Levels};
use reference::gen::logs::{log, Shape, Values};
use reference::gen::raw::run_length;
use reference::gen::Rng;
use reference::layout::encode;
use reference::mode::Mode;
use reference::record::encode_all;
use reference::summary::{Case, Summary};
use std::hint::black_box;
use std::time::Instant;
use tulghimo::raw;

/// Microseconds for one call, which is put to each input once in a round: the best of 100 rounds.
pub fn micros(mut call: impl FnMut(usize)) -> f64 {
    micros_on(&mut (), |()| (), |(), k| call(k))
}

/// The same for a call that changes what it is put to, which is made ready before each round; that takes no part of the time.
pub fn micros_on<T>(inputs: &mut T, ready: impl Fn(&mut T), mut call: impl FnMut(&mut T, usize)) -> f64 {
    let mut best = f64::MAX;
    for _ in 0..100 {
        ready(inputs);
        let start = Instant::now();
        (0..COUNT).for_each(|k| call(inputs, k));
        best = best.min(start.elapsed().as_secs_f64());
    }
    best * 1e6 / COUNT as f64
}

/// A summary with these levels, each with a value, and 1,000 opened records.
pub fn hill(rng: &mut Rng, mode: Mode, levels: &Levels) -> Vec<u8> {
    encode(&Summary { mode, case: Case::Hill(forged::hill(rng, mode, levels, 1_000)) })
}

/// The longest summary that there is, 1,788 bytes: 63 levels on both sides of a peak at level 1.
pub const LONGEST: Levels = Levels { start: 64, peak: 1, end: 64 };

/// The summaries of a log of full depth, cut into so many chunks, end to end.
fn deep_row(rng: &mut Rng, mode: Mode, chunks: usize) -> Vec<u8> {
    let records = log(rng, Shape::Deep, Values::Small, 4_096);
    let mut row = Vec::new();
    let mut out = vec![0u8; raw::LONGEST_SUMMARY];
    for chunk in records.chunks(records.len().div_ceil(chunks)) {
        let length = raw::summarise(&encode_all(chunk), mode.number(), &mut out);
        row.extend(&out[..length as usize]);
    }
    row
}

/// Two full hills, 64 of them, one random chunk and one regular.
fn merging(mode: Mode, out: &mut [u8]) -> [f64; 4] {
    let rows = many(|rng| (0..64).flat_map(|_| hill(rng, mode, &LONGEST)).collect::<Vec<u8>>());
    let chunks = [many(|rng| random(rng, 63, Records::Mixed)), many(farm_day)];
    let (left, right) = (0..1_788, 1_788..2 * 1_788);
    for row in &rows {
        assert_eq!(raw::merge(&row[left.clone()], &row[right.clone()], out), 1_788);
        assert_eq!(raw::merge_row(row, out), 1_788);
    }
    let two = micros(|k| {
        black_box(raw::merge(black_box(&rows[k][left.clone()]), black_box(&rows[k][right.clone()]), out));
    });
    let all = micros(|k| {
        black_box(raw::merge_row(black_box(&rows[k]), out));
    });
    let [random, regular] = chunks.map(|chunks| {
        micros(|k| {
            black_box(raw::summarise(black_box(&chunks[k]), mode.number(), out));
        })
    });
    [two, all, random, regular]
}

/// The lines of a plan, on average; then the plan, the runs and the work of a row of so many chunks of a deep log, beside merging the same row.
fn along_the_plan(mode: Mode, chunks: usize, out: &mut [u8]) -> [f64; 5] {
    let rows = many(|rng| deep_row(rng, mode, chunks));
    let mut totals = [0i64; 3];
    let mut all_lines = 0;
    let run = run_length(mode.number() as u16) as i64;
    for row in &rows {
        let lines = raw::plan(row, out) / 12;
        assert!(lines > 0 && raw::runs(row, out) == run * lines && raw::work(row, &mut totals) == 0);
        all_lines += lines;
    }
    let plan = micros(|k| {
        black_box(raw::plan(black_box(&rows[k]), out));
    });
    let runs = micros(|k| {
        black_box(raw::runs(black_box(&rows[k]), out));
    });
    let work = micros(|k| {
        black_box(raw::work(black_box(&rows[k]), &mut totals));
    });
    let merge = micros(|k| {
        black_box(raw::merge_row(black_box(&rows[k]), out));
    });
    [all_lines as f64 / COUNT as f64, plan, runs, work, merge]
}

/// Three tables in microseconds, a line for each mode.
pub fn bench() {
    let mut out = vec![0u8; raw::LONGEST_RUNS];
    println!("\n| Longest summaries, mode | two | 64 | one chunk, depth 63, mixed | one chunk, farm day |\n|---|---|---|---|---|");
    for mode in Mode::ALL {
        let [two, all, random, regular] = merging(mode, &mut out);
        println!("| {} | {two:.2} | {all:.1} | {random:.1} | {regular:.1} |", mode.number());
    }
    for (chunks, places) in [(2, 2), (64, 1)] {
        println!("\n| {chunks} chunks, mode | lines | plan | runs | work | merging the row |\n|---|---|---|---|---|---|");
        for mode in Mode::ALL {
            let [lines, times @ ..] = along_the_plan(mode, chunks, &mut out);
            let times = times.map(|micros| format!("{micros:.places$}")).join(" | ");
            println!("| {} | {lines:.0} | {times} |", mode.number());
        }
    }
}
