//! The parts of the reference agree with each other, on random logs and cuts.

use reference::calls;
use reference::gen::logs::{all_shapes, any_log, cut, encode_mixed, of_shape, open, with_fault};
use reference::gen::logs::{flat, Values, VALUES};
use reference::gen::raw::spoilt;
use reference::gen::Rng;
use reference::layout::{decode, encode, is_summary};
use reference::log::{fault, held, opened};
use reference::merge::merge;
use reference::mode::Mode;
use reference::plan::{joins_by_records, plan_by_levels, plan_by_records};
use reference::record::{read_first, records_of, Record};
use reference::row::{self, merge_row};
use reference::run::{join_by_records, put_through, run_of};
use reference::summary::{finish, summary_of, Case, Summary};
use reference::tree::{figure_by_holding, figures, log_figure, tree_of, write};
use reference::work::{levels_folded, work};
use std::collections::BTreeMap;

fn row_of(mode: Mode, chunks: &[Vec<Record>]) -> Vec<Summary> {
    chunks.iter().map(|chunk| summary_of(mode, chunk)).collect()
}

#[test]
fn bytes_read_back() {
    let mut rng = Rng::new(101);
    for _ in 0..1000 {
        let log = any_log(&mut rng, 40);
        let bytes = encode_mixed(&mut rng, &log);
        assert_eq!(records_of(&bytes), Some(log));
    }
}

#[test]
fn the_generated_logs_are_of_all_kinds() {
    let mut rng = Rng::new(102);
    let (mut deepest, mut widest) = (0, 0);
    let mut lengths = BTreeMap::new();
    for _ in 0..500 {
        let log = any_log(&mut rng, 200);
        assert_eq!(fault(&log), None);
        deepest = deepest.max(log.iter().map(Record::depth).max().unwrap());
        widest = widest.max(held(&log, 0).len());
        let bytes = encode_mixed(&mut rng, &log);
        let mut rest = &bytes[..];
        while let Some(first) = read_first(rest) {
            *lengths.entry(first.length).or_insert(0) += 1;
            rest = &rest[first.length..];
        }
    }
    assert_eq!(deepest, 63);
    assert!(widest > 150);
    assert!(lengths.keys().eq(&[6, 10, 18, 22]) && lengths.values().all(|&count| count > 2000), "{lengths:?}");
}

#[test]
fn recursion_holding_and_summary_agree() {
    let mut rng = Rng::new(103);
    for _ in 0..1500 {
        let log = any_log(&mut rng, 60);
        let bytes = encode_mixed(&mut rng, &log);
        assert_eq!(write(&tree_of(&log), 0), log);
        let day = calls::day(&bytes).unwrap();
        for (mode, of_day) in Mode::ALL.into_iter().zip(day) {
            let figure = log_figure(mode, &log);
            assert_eq!(figure, of_day);
            assert_eq!(figure_by_holding(mode, &log, 0), figure);
            assert_eq!(finish(&summary_of(mode, &log)), Ok(Some(figure)));
            for (place, figure) in figures(mode, &log) {
                assert_eq!(figure_by_holding(mode, &log, place), figure);
            }
        }
    }
}

#[test]
fn merges_give_the_summary_of_the_joined_chunks() {
    let mut rng = Rng::new(104);
    for round in 0..3000 {
        let log = match round % 3 {
            0 => any_log(&mut rng, 40),
            1 => {
                let number = rng.pick(&[7, 8, 11]);
                with_fault(&mut rng, number)
            }
            _ => stray_records(&mut rng),
        };
        let chunks = cut(&mut rng, &log, 2);
        for mode in Mode::ALL {
            let row = row_of(mode, &chunks);
            let joined = summary_of(mode, &log);
            assert_eq!(merge(&row[0], &row[1]), joined);
            let [left, right] = [encode(&row[0]), encode(&row[1])];
            assert_eq!(calls::merge(&left, &right, 4096), Ok(encode(&joined)));
        }
    }
}

/// Records of any depth, which mostly do not meet.
fn stray_records(rng: &mut Rng) -> Vec<Record> {
    let deepest = rng.pick(&[1, 2, 3, 64]);
    let count = rng.below(8);
    (0..count)
        .map(|_| {
            let depth = rng.below(deepest);
            let values = rng.pick(&VALUES);
            if rng.one_in(2) {
                Record::Open(open(rng, depth, values))
            } else {
                Record::Close { depth }
            }
        })
        .collect()
}

#[test]
fn summaries_of_chunks_are_accepted_and_read_back() {
    let mut rng = Rng::new(105);
    for _ in 0..1500 {
        let log = any_log(&mut rng, 100);
        for chunk in cut(&mut rng, &log, 3) {
            for mode in Mode::ALL {
                let summary = summary_of(mode, &chunk);
                let bytes = encode(&summary);
                assert!(is_summary(&bytes));
                assert_eq!(decode(&bytes), Some(summary));
            }
        }
    }
}

#[test]
fn every_record_of_a_chunk_is_counted_in_its_hill() {
    // In mode 1 a hill's numbers add to all values of its chunk.
    let mut rng = Rng::new(106);
    for _ in 0..1500 {
        let log = any_log(&mut rng, 60);
        for chunk in cut(&mut rng, &log, 3) {
            let Case::Hill(hill) = summary_of(Mode::Net, &chunk).case else {
                assert!(chunk.is_empty());
                continue;
            };
            let slopes = hill.left.iter().chain([&hill.middle]).flatten();
            let sum: i64 =
                slopes.sum::<i64>() + hill.right.iter().map(|unclosed| unclosed.record.value + unclosed.held.unwrap()).sum::<i64>();
            let values: i64 = chunk
                .iter()
                .filter_map(|record| match record {
                    Record::Open(open) => Some(open.value),
                    Record::Close { .. } => None,
                })
                .sum();
            assert_eq!(sum, values);
            assert_eq!(hill.opened, opened(&chunk));
        }
    }
}

/// All that the plan of a cut well-formed log promises.
fn check_plan(mode: Mode, log: &[Record], chunks: &[Vec<Record>]) {
    let row = row_of(mode, chunks);
    let lines = plan_by_levels(&row);
    assert_eq!(lines, plan_by_records(chunks));
    assert!(lines.len() <= 2 * chunks.len() - 3);
    let joins = joins_by_records(chunks);
    assert_eq!(levels_folded(&lines), joins.len());
    assert!(lines.windows(2).all(|pair| (pair[0].j, pair[1].i) < (pair[1].j, pair[0].i)));
    let worked = work(&row);
    assert_eq!(worked.figure, Some(log_figure(mode, log)));
    assert_eq!(worked.joins, lines.len());
    assert_eq!(worked.levels, joins.len());
    assert_eq!(row::fault(&row), None);
    assert_eq!(finish(&merge_row(&row)), Ok(worked.figure));
    for line in &lines {
        let (x, figure) = join_by_records(mode, chunks, line);
        assert_eq!(put_through(&run_of(&row, line), x), figure);
    }
}

#[test]
fn plans_and_work_of_random_cuts() {
    let mut rng = Rng::new(107);
    for round in 0..1500 {
        let log = any_log(&mut rng, if round % 50 == 0 { 300 } else { 40 });
        let most = if round % 50 == 0 { 64 } else { 9 };
        let count = 2 + rng.below(most - 1);
        let chunks = cut(&mut rng, &log, count);
        let mode = rng.pick(&Mode::ALL);
        check_plan(mode, &log, &chunks);
    }
}

#[test]
fn all_small_logs_all_cuts_all_orders() {
    let mut rng = Rng::new(108);
    for count in 1..=4 {
        for shape in all_shapes(count) {
            let log = of_shape(&mut rng, &shape, Values::Small);
            for first in 0..=log.len() {
                for second in first..=log.len() {
                    let chunks = [&log[..first], &log[first..second], &log[second..]];
                    three_chunks(&log, &chunks.map(<[Record]>::to_vec));
                }
            }
        }
    }
}

/// Three chunks merged in both orders, in every mode.
fn three_chunks(log: &[Record], chunks: &[Vec<Record>]) {
    for mode in Mode::ALL {
        let row = row_of(mode, chunks);
        let expected = summary_of(mode, log);
        let left_first = merge(&merge(&row[0], &row[1]), &row[2]);
        let right_first = merge(&row[0], &merge(&row[1], &row[2]));
        assert_eq!(left_first, expected);
        assert_eq!(right_first, expected);
        check_plan(mode, log, chunks);
    }
}

#[test]
fn the_number_of_small_logs() {
    // 1, 1, 2, 5, 14, 42: rose trees with n records.
    let counts: Vec<usize> = (1..=6).map(|count| all_shapes(count).len()).collect();
    assert_eq!(counts, [1, 1, 2, 5, 14, 42]);
}

#[test]
fn faults_agree_along_every_way() {
    let mut rng = Rng::new(109);
    for round in 0..1200 {
        let number = [7, 8, 10, 11][round % 4];
        let log = with_fault(&mut rng, number);
        assert_eq!(fault(&log), Some(number));
        assert_eq!(calls::day(&encode_mixed(&mut rng, &log)), Err(number), "{log:?}");
        let count = 2 + rng.below(8);
        let chunks = cut(&mut rng, &log, count);
        for mode in Mode::ALL {
            assert_eq!(finish(&summary_of(mode, &log)), Err(number));
            let row = row_of(mode, &chunks);
            assert_eq!(row::fault(&row), Some(number));
            assert_eq!(finish(&merge_row(&row)), Err(number));
        }
    }
}

#[test]
fn too_many_opened_in_one_stretch() {
    let mut rng = Rng::new(110);
    let log = with_fault(&mut rng, 9);
    assert_eq!(fault(&log), Some(9));
    assert_eq!(finish(&summary_of(Mode::Net, &log)), Err(9));
    // 100,001 "means 'more'".
    for count in [100_001, 100_002] {
        let summary = summary_of(Mode::Net, &flat(count));
        assert_eq!(encode(&summary), spoilt(1, 9, 0, 0, 100_001));
    }
    let log = flat(100_000);
    assert_eq!(fault(&log), None);
    assert_eq!(finish(&summary_of(Mode::Net, &log)), Ok(Some(100_000)));
}

#[test]
fn a_plan_of_2p_minus_3_lines() {
    // Three chunks: open 0, open 1 / close 1, open 1 / close 1, close 0. Joins: 0 and
    // 1 at depth 1, 1 and 2 at depth 1, 0 and 2 at depth 0.
    let mut rng = Rng::new(111);
    let shape = [true, true, false, true, false, false];
    let log = of_shape(&mut rng, &shape, Values::Small);
    let chunks = [&log[..2], &log[2..4], &log[4..]].map(<[Record]>::to_vec);
    let lines = plan_by_records(&chunks);
    let numbers: Vec<_> = lines.iter().map(|line| [line.i, line.j, line.lowest, line.highest]).collect();
    assert_eq!(numbers, [[0, 1, 1, 1], [1, 2, 1, 1], [0, 2, 0, 0]]);
    assert_eq!(plan_by_levels(&row_of(Mode::Stamp, &chunks)), lines);
}
