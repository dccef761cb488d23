//! The day's figures: the proved library against the recursive tally.

use compare::agree::day as agree;
use compare::LentNumbers;
use reference::gen::raw::longest_log;
use reference::gen::{damage, logs, Rng};
use reference::mode::Mode;
use reference::record::{encode_all, encode_close, Open, Record};
use reference::tree::figure_by_holding;

fn open(depth: usize, value: i64, floor: i64, ceiling: i64) -> Record {
    Record::Open(Open { depth, value, floor, ceiling })
}

fn close(depth: usize) -> Record {
    Record::Close { depth }
}

#[test]
fn log_d() {
    let log = [open(0, 10, 0, 100), open(1, 5, 0, 4), close(1), open(1, -3, 0, 100), close(1), close(0)];
    let answer = LentNumbers::default().lend(|figures| tulghimo::raw::day(&encode_all(&log), figures));
    // Document 02: `12 15 12 72`.
    assert_eq!(answer, (0, [12, 15, 12, 72]));
}

#[test]
fn edges() {
    agree(&[]);
    agree(&encode_close(1));
    agree(&[1]);
    let pair = [open(0, 1, 0, 9), close(0)];
    agree(&encode_all(&pair));
    agree(&encode_all(&[pair, pair].concat()));
    agree(&encode_all(&[open(0, 1, 0, 9), open(0, 1, 0, 9)]));
    for depth in [62, 63] {
        let mut log: Vec<Record> = (0..=depth).map(|d| open(d, 1 << 20, -1_000_000_000, 1_000_000_000)).collect();
        log.extend((0..=depth).rev().map(close));
        agree(&encode_all(&log));
        agree(&encode_all(&log[..log.len() - 1]));
        agree(&encode_all(&log[1..]));
    }
}

#[test]
fn lengths_at_the_limit() {
    let day = |log: &[u8]| LentNumbers::default().lend(|figures| tulghimo::raw::day(log, figures));
    // 4,096 records of one gram, 4,095 of them held by the first: stamp 1 + 31 × 4,095.
    let mut log = longest_log();
    assert_eq!(day(&log), (0, [4096, 2, 4096, 126_946]));
    agree(&log);
    log.push(0);
    assert_eq!(day(&log).0, -2);
    agree(&log);
    agree(&vec![0; 65_536]);
    agree(&vec![0; 65_537]);
}

#[test]
fn four_records_of_all_kinds() {
    let records: Vec<Record> = (0..3).flat_map(|d| [open(d, 5, -1, 3), close(d)]).collect();
    for a in &records {
        for b in &records {
            for c in &records {
                for d in &records {
                    agree(&encode_all(&[*a, *b, *c, *d]));
                }
            }
        }
    }
}

#[test]
fn all_small_logs() {
    let mut rng = Rng::new(0xda1);
    for opened in 1..=6 {
        for shape in logs::all_shapes(opened) {
            for values in logs::VALUES {
                let log = logs::of_shape(&mut rng, &shape, values);
                agree(&logs::encode_mixed(&mut rng, &log));
            }
        }
    }
}

#[test]
fn figures_by_who_holds_whom() {
    // Closes and held records searched for in the log, as document 01 has them; no tree.
    let mut rng = Rng::new(0xda3);
    for _ in 0..500 {
        let log = logs::any_log(&mut rng, 60);
        let expected = Mode::ALL.map(|mode| figure_by_holding(mode, &log, 0));
        let bytes = logs::encode_mixed(&mut rng, &log);
        let answer = LentNumbers::default().lend(|figures| tulghimo::raw::day(&bytes, figures));
        assert_eq!(answer, (0, expected));
    }
}

#[test]
fn random_logs_and_damaged_ones() {
    let mut rng = Rng::new(0xda2);
    for round in 0..3000 {
        let log = logs::any_log(&mut rng, if round % 20 == 0 { 3000 } else { 60 });
        let bytes = logs::encode_mixed(&mut rng, &log);
        agree(&bytes);
        agree(&damage::damage(&mut rng, &bytes));
    }
    for fault in [7, 8, 10, 11] {
        for _ in 0..200 {
            let log = logs::with_fault(&mut rng, fault);
            agree(&logs::encode_mixed(&mut rng, &log));
        }
    }
}
