//! L3: "Any cutting and any plan must still lead to the recursion, now with this leaf
//! rule". Of every small log and every cut of it, and of random ones. `compare` puts this
//! to the library.

use crate::calls::{day, finish, merge, merge_row, plan, runs, summarise, work};
use reference::gen::logs::{all_shapes, any_log, cut, log_or_faulty, longest_plan, of_shape, Values};
use reference::gen::raw::{close, run_numbers, short};
use reference::gen::Rng;
use reference::record::{encode_all, Record};

const AMPLE: usize = 8192;

/// Mode 5 in the request's words, with the reading of a log: the figure of the record that
/// is opened at a place, and the place after its close.
fn recursion(log: &[Record], place: usize) -> (i64, usize) {
    let Record::Open(opened) = log[place] else { panic!("no open record at place {place}") };
    let (mut held, mut next) = (Vec::new(), place + 1);
    while log[next].is_open() {
        let (figure, after) = recursion(log, next);
        held.push(figure);
        next = after;
    }
    let sum = opened.value + held.iter().sum::<i64>();
    let figure = if held.is_empty() { opened.value } else { sum.max(opened.floor).min(opened.ceiling) };
    (figure, next + 1)
}

/// The figure of a well-formed log.
pub fn eaten(log: &[Record]) -> i64 {
    recursion(log, 0).0
}

/// The summaries of chunks in mode 5.
fn summaries(chunks: &[Vec<Record>]) -> Vec<Vec<u8>> {
    chunks.iter().map(|chunk| summarise(&encode_all(chunk), 5, AMPLE).expect("readable records")).collect()
}

#[test]
fn the_day_is_the_recursion() {
    let mut rng = Rng::new(0x311);
    for round in 0..2000 {
        let log = any_log(&mut rng, if round % 40 == 0 { 2000 } else { 60 });
        assert_eq!(day(&encode_all(&log)).map(|figures| figures[2]), Ok(eaten(&log)));
    }
}

/// Three chunks in both orders, in one call and by the work along their plan.
fn three_lead_to(chunks: &[Vec<Record>], figure: i64) {
    let sent = summaries(chunks);
    let join = |left: &[u8], right: &[u8]| merge(left, right, AMPLE).expect("of one mode");
    let [left_first, right_first] = [join(&join(&sent[0], &sent[1]), &sent[2]), join(&sent[0], &join(&sent[1], &sent[2]))];
    assert_eq!(left_first, right_first);
    assert_eq!(merge_row(&sent.concat(), AMPLE), Ok(left_first.clone()));
    assert_eq!(finish(&left_first), Ok(figure));
    assert_eq!(work(&sent.concat()).map(|answer| answer.0), Ok(figure));
}

#[test]
fn every_cut_of_every_small_log_leads_to_the_recursion() {
    let mut rng = Rng::new(0x312);
    for shape in (1..=4).flat_map(all_shapes) {
        for values in [Values::Small, Values::Small, Values::Ends] {
            let log = of_shape(&mut rng, &shape, values);
            for first in 0..=log.len() {
                for second in first..=log.len() {
                    let chunks = [&log[..first], &log[first..second], &log[second..]];
                    three_lead_to(&chunks.map(<[Record]>::to_vec), eaten(&log));
                }
            }
        }
    }
}

#[test]
fn random_cuts_in_random_orders_lead_to_the_recursion() {
    let mut rng = Rng::new(0x313);
    for _ in 0..1500 {
        let log = any_log(&mut rng, 40);
        let count = 2 + rng.below(9);
        let mut row = summaries(&cut(&mut rng, &log, count));
        assert_eq!(work(&row.concat()).map(|answer| answer.0), Ok(eaten(&log)));
        while row.len() > 1 {
            let place = rng.below(row.len() - 1);
            let merged = merge(&row[place], &row[place + 1], AMPLE).expect("of one mode");
            row.splice(place..place + 2, [merged]);
        }
        assert_eq!(finish(&row[0]), Ok(eaten(&log)));
    }
}

/// Grams to put between two chunks.
pub const BETWEEN: [i32; 11] = [-1_000_000_000, -41, -20, -3, -1, 0, 1, 2, 19, 40, 1_000_000_000];

/// The numbers of the runs of mode 5: z, a, l and h of each.
pub fn numbers(runs: &[u8]) -> Vec<[i64; 4]> {
    let of_one = |run: &[u8]| {
        assert_eq!(run[..6], [38, 0, 20, 0, 5, 0]);
        run_numbers(run).try_into().expect("four numbers")
    };
    runs.chunks(38).map(of_one).collect()
}

#[test]
fn a_run_is_the_log_as_a_function_of_what_is_between_its_chunks() {
    let mut rng = Rng::new(0x314);
    let mut outside = 0;
    for _ in 0..1500 {
        let log = any_log(&mut rng, 8);
        let place = 1 + rng.below(log.len() - 1);
        let (left, right) = log.split_at(place);
        let row = summaries(&[left.to_vec(), right.to_vec()]).concat();
        let [z, a, l, h] = numbers(&runs(&row, 38).expect("one line"))[0];
        assert_eq!(z, eaten(&log));
        outside += usize::from(!(l..=h).contains(&z));
        let level = right[0].start_level() as u16;
        for x in BETWEEN {
            let whole = [encode_all(left), short(level, x), close(level), encode_all(right)].concat();
            assert_eq!(day(&whole).map(|figures| figures[2]), Ok((i64::from(x) + a).max(l).min(h)));
        }
    }
    assert!(outside > 100, "{outside}");
}

#[test]
fn as_many_runs_as_there_can_be() {
    // 64 chunks have at most 125 lines: 125 × 38 = 4,750 bytes.
    let mut rng = Rng::new(0x315);
    for count in 2..=64 {
        let row = summaries(&longest_plan(&mut rng, count)).concat();
        let lines = 2 * count - 3;
        assert_eq!(plan(&row, AMPLE).map(|bytes| bytes.len()), Ok(12 * lines));
        let written = runs(&row, 38 * lines).expect("an exact buffer");
        assert_eq!(numbers(&written).len(), lines);
        assert_eq!(runs(&row, 38 * lines - 1), Err(12));
        assert_eq!(runs(&row, 30 * lines), Err(12));
    }
}

#[test]
fn mode_3_is_refused_whatever_else_there_is() {
    let mut rng = Rng::new(0x316);
    for _ in 0..500 {
        let log = log_or_faulty(&mut rng, 30);
        let chunk = encode_all(&log);
        assert_eq!(summarise(&chunk, 3, AMPLE), Err(1));
        let mut sent = summaries(&cut(&mut rng, &log, 4));
        let place = rng.below(4);
        sent[place][4] = 3;
        assert_eq!(finish(&sent[place]), Err(5));
        for two in sent.windows(2) {
            let refused = two.iter().any(|summary| summary[4] == 3);
            assert_eq!(merge(&two[0], &two[1], AMPLE).err(), refused.then_some(5));
        }
        assert_eq!(merge_row(&sent.concat(), AMPLE), Err(5));
        assert_eq!(work(&sent.concat()), Err(5));
    }
}
