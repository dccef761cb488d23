//! L6: x leads to y and is the only one that does, and every run that the runs' call writes
//! is one; of random runs and of the runs of random logs. `compare` puts this to the library.

use crate::calls::{backwards, day, runs, summarise};
use reference::gen::logs::{any_log, cut, longest_plan};
use reference::gen::raw::{close, run, run_length, run_numbers, short, stamp_forwards, Hill, MODES, RANGE};
use reference::gen::runs::{any_run, any_y, figure};
use reference::gen::{forged, Rng};
use reference::layout::encode;
use reference::mode::Mode;
use reference::record::{encode_all, Record};

const AMPLE: usize = 8192;

/// "±10^14"
const FAR: i64 = 100_000_000_000_000;

/// An x put through a run of mode 1 or 4, by its numbers.
fn forwards(run: &[u8], x: i64) -> i64 {
    let numbers = run_numbers(run);
    if run[4] == 1 {
        return x + numbers[0];
    }
    stamp_forwards(numbers[0], numbers[1], x)
}

/// A run of mode 1 or 4: back to a y is an x that leads to it, and an x comes back.
fn there_and_back(rng: &mut Rng, run: &[u8]) {
    let mode = u16::from(run[4]);
    for _ in 0..4 {
        let y = figure(rng, mode);
        let x = backwards(run, y).expect("a run and a figure in range");
        assert!(mode == 1 || (0..RANGE).contains(&x), "{x}");
        assert_eq!(forwards(run, x), y);
        let x = figure(rng, mode);
        // In mode 1 the outer figure may be beyond 10^14.
        match backwards(run, forwards(run, x)) {
            Err(17) => assert!(mode == 1 && forwards(run, x).abs() > FAR),
            back => assert_eq!(back, Ok(x)),
        }
    }
}

/// A run that was written: never 15, 16 in modes 2 and 5.
fn was_written(rng: &mut Rng, run: &[u8]) {
    match run[4] {
        1 | 4 => there_and_back(rng, run),
        _ => assert_eq!(backwards(run, any_y(rng)), Err(16)),
    }
}

/// The summaries of chunks in a mode, end to end.
fn row_of(chunks: &[Vec<Record>], mode: u16) -> Vec<u8> {
    chunks.iter().flat_map(|chunk| summarise(&encode_all(chunk), mode.into(), AMPLE).expect("readable")).collect()
}

/// The runs of a row, each by itself.
fn runs_of(row: &[u8], mode: u16) -> Vec<Vec<u8>> {
    let written = runs(row, AMPLE).expect("a row without a fault");
    written.chunks(run_length(mode)).map(<[u8]>::to_vec).collect()
}

#[test]
fn there_and_back_by_any_run() {
    let mut rng = Rng::new(0x611);
    for round in 0..4000 {
        let run = any_run(&mut rng, [1, 4][round % 2]);
        there_and_back(&mut rng, &run);
    }
}

#[test]
fn no_other_x_leads_there() {
    let mut rng = Rng::new(0x612);
    for round in 0..1000 {
        let mode = [1, 4][round % 2];
        let run = any_run(&mut rng, mode);
        let y = figure(&mut rng, mode);
        let x = backwards(&run, y).expect("a run and a figure in range");
        assert_eq!(forwards(&run, x), y);
        // Each bit of it changed, its neighbours and any others.
        let bits = (0..32).map(|bit| x ^ (1 << bit));
        let others = [x - 1, x + 1, figure(&mut rng, mode), figure(&mut rng, mode)];
        for other in bits.chain(others).filter(|&other| other != x && (mode == 1 || (0..RANGE).contains(&other))) {
            assert_ne!(forwards(&run, other), y, "{x} and {other}");
        }
    }
}

#[test]
fn neighbouring_figures_have_different_ways_back() {
    let mut rng = Rng::new(0x613);
    for _ in 0..4 {
        let run = any_run(&mut rng, 4);
        let first = rng.between(0, RANGE - 65_536);
        let mut found: Vec<i64> = (first..first + 65_536).map(|y| backwards(&run, y).expect("in range")).collect();
        found.sort();
        found.dedup();
        assert_eq!(found.len(), 65_536);
    }
}

#[test]
fn every_run_of_a_cut_log_is_one() {
    let mut rng = Rng::new(0x614);
    let mut seen = [0; 4];
    for round in 0..400 {
        let log = any_log(&mut rng, if round % 20 == 0 { 400 } else { 40 });
        let count = 2 + rng.below(9);
        let chunks = if round % 40 == 0 { longest_plan(&mut rng, 64) } else { cut(&mut rng, &log, count) };
        for (seen, mode) in seen.iter_mut().zip(MODES) {
            let runs = runs_of(&row_of(&chunks, mode), mode);
            runs.iter().for_each(|run| was_written(&mut rng, run));
            *seen += runs.len();
        }
    }
    assert!(seen.iter().all(|&count| count > 1000), "{seen:?}");
}

#[test]
fn every_run_of_a_row_that_no_chunk_makes_is_one() {
    let mut rng = Rng::new(0x615);
    let (mut seen, mut farthest) = ([0; 4], 0);
    for _ in 0..400 {
        for (seen, mode) in seen.iter_mut().zip(Mode::ALL) {
            let count = 2 + rng.below(6);
            let row: Vec<u8> = forged::row(&mut rng, mode, count).iter().flat_map(encode).collect();
            let runs = runs_of(&row, mode.number() as u16);
            runs.iter().for_each(|run| was_written(&mut rng, run));
            *seen += runs.len();
            // The first number is never -2^63.
            farthest = runs.iter().map(|run| run_numbers(run)[0].abs()).fold(farthest, i64::max);
        }
    }
    assert!(seen.iter().all(|&count| count > 200), "{seen:?}");
    // Some come near the limit that 15 puts.
    assert!(farthest > 50_000_000_000_000, "{farthest}");
}

#[test]
fn the_farthest_run_is_taken() {
    // 100,000 records of 10^9, or of -10^9, all but one of them held in the one that is open.
    const GRAMS: i32 = 1_000_000_000;
    for (grams, far) in [(GRAMS, FAR), (-GRAMS, -FAR)] {
        let ends = i64::from(GRAMS);
        let alone = i64::from(grams);
        for mode in [1, 2, 5] {
            let left = Hill { right: vec![(grams, -GRAMS, GRAMS, far - alone)], ..Hill::empty(mode, 0, 0, 1, 100_000) };
            let row = [left.bytes(), Hill::empty(mode, 1, 0, 0, 0).bytes()].concat();
            let due = match mode {
                1 => run(1, &[far, 0, 0]),
                2 => run(2, &[far, far, alone]),
                _ => run(5, &[alone, far, -ends, ends]),
            };
            assert_eq!(runs_of(&row, mode), [&due[..]]);
            let back = [-far, 0, far].map(|y| backwards(&due, y));
            assert_eq!(back, if mode == 1 { [Ok(-2 * far), Ok(-far), Ok(0)] } else { [Err(16); 3] });
        }
    }
}

#[test]
fn the_figure_that_is_inside_comes_back() {
    let mut rng = Rng::new(0x616);
    for _ in 0..1500 {
        let log = any_log(&mut rng, 8);
        let place = 1 + rng.below(log.len() - 1);
        let (left, right) = log.split_at(place);
        let [net, stamp] = [1, 4].map(|mode| runs_of(&row_of(&[left.to_vec(), right.to_vec()], mode), mode)[0].clone());
        // One record more where the log is cut, at the level that it has there.
        let level = right[0].start_level() as u16;
        let grams = rng.between(-1_000_000_000, 1_000_000_000) as i32;
        let whole = [encode_all(left), short(level, grams), close(level), encode_all(right)].concat();
        let figures = day(&whole).expect("a well-formed log");
        assert_eq!(backwards(&net, figures[0]), Ok(grams.into()));
        assert_eq!(backwards(&stamp, figures[3]), Ok(i64::from(grams).rem_euclid(RANGE)));
    }
}
