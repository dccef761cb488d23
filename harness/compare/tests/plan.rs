//! The join plan, its runs and the work along it: the proved library against the reference, every byte of every buffer.

use compare::{agree, LentBytes, LentNumbers};
use reference::calls;
use reference::gen::raw::run_length;
use reference::gen::{damage, forged, logs, Rng};
use reference::layout::encode;
use reference::mode::{Held, Mode};
use reference::plan::{encode_plan, plan_by_records, Line};
use reference::record::{encode_all, Record};
use reference::run::join_by_records;
use reference::tree::log_figure;
use reference::work::levels_folded;
use tulghimo::Run;

const AMPLE: usize = 8192;

/// A row by all three calls.
fn agree(row: &[u8]) {
    agree::plan(row);
    agree::runs(row);
    agree::work(row);
}

fn row_of(chunks: &[Vec<Record>], mode: Mode) -> Vec<u8> {
    let summary = |chunk: &Vec<Record>| calls::summarise(&encode_all(chunk), mode.number(), AMPLE).unwrap();
    chunks.iter().map(summary).collect::<Vec<_>>().concat()
}

/// 300 logs, each cut into 2 to 10 chunks, in each mode: the log, its chunks and the lines of their plan by records.
fn cut_logs(seed: u64, mut check: impl FnMut(Mode, &[Record], &[Vec<Record>], &[Line])) {
    let mut rng = Rng::new(seed);
    for _ in 0..300 {
        let log = logs::any_log(&mut rng, 40);
        let count = 2 + rng.below(9);
        let chunks = logs::cut(&mut rng, &log, count);
        let lines = plan_by_records(&chunks);
        for mode in Mode::ALL {
            check(mode, &log, &chunks, &lines);
        }
    }
}

#[test]
fn random_cuts_of_random_logs() {
    let mut rng = Rng::new(0x91a1);
    for round in 0..800 {
        let log = logs::any_log(&mut rng, if round % 10 == 0 { 400 } else { 40 });
        let count = 2 + rng.below(if round % 10 == 0 { 63 } else { 8 });
        let chunks = logs::cut(&mut rng, &log, count);
        for mode in Mode::ALL {
            agree(&row_of(&chunks, mode));
        }
    }
}

#[test]
fn lines_are_the_joins_by_records() {
    cut_logs(0x91a2, |mode, _, chunks, lines| {
        let row = row_of(chunks, mode);
        LentBytes::new(AMPLE).check(&Ok(encode_plan(lines)), |out| tulghimo::raw::plan(&row, out));
    });
}

/// x through a run by its numbers, in the documents' words for each mode.
fn through(run: Run, x: Held) -> i64 {
    match (run, x) {
        (Run::Net { a }, x) => x.unwrap_or(0) + a,
        (Run::Heaviest { z, .. } | Run::Eaten { z, .. }, None) => z,
        (Run::Heaviest { a, b, .. }, Some(x)) => a.map_or(x + b, |a| a.max(x + b)),
        (Run::Eaten { a, l, h, .. }, Some(x)) => (x + a).max(l).min(h),
        (Run::Stamp { m, q }, x) => {
            let product = i128::from(m) * i128::from(x.unwrap_or(0));
            (product + i128::from(q)).rem_euclid(1 << 32) as i64
        }
    }
}

#[test]
fn a_run_is_the_figure_of_its_lowest_record_by_x() {
    cut_logs(0x91a8, |mode, _, chunks, lines| {
        let runs = tulghimo::runs(&row_of(chunks, mode)).expect("a well-formed log");
        assert_eq!(runs.len(), lines.len());
        for (run, line) in runs.into_iter().zip(lines) {
            let (x, figure) = join_by_records(mode, chunks, line);
            assert_eq!(through(run, x), figure, "{line:?}");
        }
    });
}

#[test]
fn the_work_is_the_recursion() {
    cut_logs(0x91a7, |mode, log, chunks, lines| {
        let expected = [log_figure(mode, log), lines.len() as i64, levels_folded(lines) as i64];
        let answer = LentNumbers::default().lend(|work| tulghimo::raw::work(&row_of(chunks, mode), work));
        assert_eq!(answer, (0, expected));
    });
}

#[test]
fn plans_of_2p_minus_3_lines() {
    let mut rng = Rng::new(0x91a6);
    for count in 2..=64 {
        for mode in Mode::ALL {
            let row = row_of(&logs::longest_plan(&mut rng, count), mode);
            let lines = 2 * count - 3;
            assert_eq!(tulghimo::raw::plan(&row, &mut [0; AMPLE]), 12 * lines as i64);
            let runs = run_length(mode.number() as u16) * lines;
            assert_eq!(tulghimo::raw::runs(&row, &mut [0; AMPLE]), runs as i64);
            agree(&row);
        }
    }
}

#[test]
fn forged_rows() {
    let mut rng = Rng::new(0x91a3);
    for round in 0..1500 {
        let mode = rng.pick(&Mode::ALL);
        let count = 1 + rng.below(if round % 10 == 0 { 64 } else { 9 });
        let row: Vec<u8> = forged::row(&mut rng, mode, count).iter().map(encode).collect::<Vec<_>>().concat();
        agree(&row);
        agree(&damage::damage(&mut rng, &row));
        let faulty: Vec<u8> = forged::neighbours(&mut rng, mode, count, 20).iter().map(encode).collect::<Vec<_>>().concat();
        agree(&faulty);
    }
}

#[test]
fn how_many_pieces() {
    let mut rng = Rng::new(0x91a4);
    for count in [1, 2, 3, 63, 64, 65, 66] {
        for mode in Mode::ALL {
            let row: Vec<u8> = forged::row(&mut rng, mode, count).iter().map(encode).collect::<Vec<_>>().concat();
            agree(&row);
        }
    }
    agree(&[]);
}

#[test]
fn rows_cut_short_at_every_byte() {
    let mut rng = Rng::new(0x91a5);
    for mode in Mode::ALL {
        let row: Vec<u8> = forged::row(&mut rng, mode, 3).iter().map(encode).collect::<Vec<_>>().concat();
        for length in 0..row.len() {
            agree(&row[..length]);
        }
    }
}
