//! Merge and merge a row: the proved library against the reference, every byte of every buffer.

use compare::agree::{merge as merge_agrees, merge_row as row_agrees};
use compare::LentBytes;
use reference::calls;
use reference::gen::{damage, forged, logs, Rng};
use reference::layout::{encode, is_summary};
use reference::mode::Mode;
use reference::record::{encode_all, Record};
use reference::summary::{Case, Spoilt, Summary};
use tulghimo::raw;

const AMPLE: usize = 4096;

/// The longest summary: 63 levels on both sides of a peak at level 1.
const LONGEST: usize = 1788;

/// A row by both calls: as it is lent, and its first two.
fn both_agree(row: &[Vec<u8>]) {
    row_agrees(&row.concat());
    if row.len() >= 2 {
        merge_agrees(&row[0], &row[1]);
    }
}

fn bytes_of(row: &[Summary]) -> Vec<Vec<u8>> {
    row.iter().map(encode).collect()
}

fn forged_bytes(rng: &mut Rng, mode: Mode) -> Vec<u8> {
    encode(&forged::summary(rng, mode))
}

fn blank(mode: Mode) -> Summary {
    Summary { mode, case: Case::Blank }
}

fn spoilt(mode: Mode, fault: u8, start: usize, end: usize, opened: u64) -> Summary {
    Summary { mode, case: Case::Spoilt(Spoilt { fault, start, end, opened }) }
}

/// A hill of these levels, its values drawn at random, in a third of the cases at the bound.
fn hill(rng: &mut Rng, mode: Mode, (start, peak, end): (usize, usize, usize), opened: u64) -> Summary {
    let levels = forged::Levels { start, peak, end };
    let case = Case::Hill(forged::hill(rng, mode, &levels, opened));
    Summary { mode, case }
}

#[test]
fn forged_neighbours() {
    let mut rng = Rng::new(0x3e1);
    for round in 0..6000 {
        let mode = rng.pick(&Mode::ALL);
        let stray = if round % 3 == 0 { 2 } else { 1000 };
        both_agree(&bytes_of(&forged::neighbours(&mut rng, mode, 2, stray)));
    }
}

#[test]
fn any_two_summaries() {
    let mut rng = Rng::new(0x3e2);
    for _ in 0..2000 {
        let (left, right) = (rng.pick(&Mode::ALL), rng.pick(&Mode::ALL));
        let (left, right) = (forged_bytes(&mut rng, left), forged_bytes(&mut rng, right));
        merge_agrees(&left, &right);
        merge_agrees(&damage::damage(&mut rng, &left), &right);
        merge_agrees(&left, &damage::damage(&mut rng, &right));
        merge_agrees(&left, &[]);
        merge_agrees(&[], &right);
    }
}

#[test]
fn rows_of_all_lengths() {
    let mut rng = Rng::new(0x3e3);
    for count in (0..=10).chain([31, 32, 33, 63, 64, 65, 66, 130]) {
        for round in 0..8 {
            let mode = Mode::ALL[round % 4];
            for stray in [4, 40, 400] {
                both_agree(&bytes_of(&forged::neighbours(&mut rng, mode, count, stray)));
            }
            if count > 0 {
                both_agree(&bytes_of(&forged::row(&mut rng, mode, count)));
            }
        }
    }
}

#[test]
fn how_a_row_is_cut() {
    // 1, 2, 64 and 65 blanks, and what may follow them: a stray byte is a piece, and so is a length that is too low or too high.
    for mode in Mode::ALL {
        for count in [1, 2, 3, 63, 64, 65] {
            let blanks = bytes_of(&vec![blank(mode); count]).concat();
            for tail in [&[][..], &[6], &[0, 0], &[5, 0, 16, 0, 1, 0], &[6, 0, 16, 0, 1], &[7, 0, 16, 0, 1, 0], &[255; 9]] {
                row_agrees(&[&blanks, tail].concat());
                row_agrees(&[tail, &blanks].concat());
            }
        }
    }
}

#[test]
fn rows_cut_short_at_every_byte() {
    let mut rng = Rng::new(0x3e4);
    for mode in Mode::ALL {
        let row = bytes_of(&forged::row(&mut rng, mode, 3)).concat();
        for length in 0..row.len() {
            row_agrees(&row[..length]);
            row_agrees(&row[row.len() - length..]);
        }
        let summary = forged_bytes(&mut rng, mode);
        for length in 0..summary.len() {
            merge_agrees(&summary[..length], &summary);
            merge_agrees(&summary, &summary[..length]);
        }
    }
}

#[test]
fn rows_of_other_modes_and_damaged_ones() {
    let mut rng = Rng::new(0x3e5);
    for _ in 0..1500 {
        let mode = rng.pick(&Mode::ALL);
        let count = 2 + rng.below(5);
        let mut row = bytes_of(&forged::neighbours(&mut rng, mode, count, 50));
        let place = rng.below(row.len());
        let other = rng.pick(&Mode::ALL);
        row[place] = forged_bytes(&mut rng, other);
        both_agree(&row);
        row_agrees(&damage::damage(&mut rng, &row.concat()));
        row_agrees(&damage::noise(&mut rng, 80));
    }
}

#[test]
fn every_byte_of_a_row_changed() {
    let mut rng = Rng::new(0x3e8);
    for mode in Mode::ALL {
        let row = bytes_of(&forged::neighbours(&mut rng, mode, 3, 6)).concat();
        for place in 0..row.len().min(300) {
            for value in [0, 1, 0x7f, 0x80, 0xff, row[place] ^ 1] {
                let mut changed = row.clone();
                changed[place] = value;
                row_agrees(&changed);
            }
        }
    }
}

fn summary(chunk: &[Record], mode: Mode) -> Vec<u8> {
    let mut out = vec![0; 2048];
    let length = raw::summarise(&encode_all(chunk), mode.number(), &mut out);
    out.truncate(length as usize);
    out
}

/// A row in all orders: each two or more neighbours merged by each call that takes them, what is written put in their place, and so on
/// until one is left. `joined` says what the pieces of a part of the first row must come to; `ends` are the places where pieces end.
fn all_orders(row: &[Vec<u8>], ends: &[usize], joined: &dyn Fn(usize, usize) -> Vec<u8>) -> usize {
    let mut orders = usize::from(row.len() == 1);
    for first in 0..row.len() {
        for last in first + 1..row.len() {
            let from = if first == 0 { 0 } else { ends[first - 1] };
            let expected = joined(from, ends[last]);
            let lent = row[first..=last].concat();
            let ok = Ok(expected.clone());
            LentBytes::new(expected.len() + 3).check(&ok, |out| raw::merge_row(&lent, out));
            if last == first + 1 {
                LentBytes::new(expected.len()).check(&ok, |out| raw::merge(&row[first], &row[last], out));
            }
            let mut shorter = row.to_vec();
            shorter.splice(first..=last, [expected]);
            let kept: Vec<usize> = [&ends[..first], &ends[last..]].concat();
            orders += all_orders(&shorter, &kept, joined);
        }
    }
    orders
}

#[test]
fn all_orders_of_small_logs() {
    // Every cut of every shape of three opened records into four chunks, blank ones with them.
    let mut rng = Rng::new(0x3e6);
    for shape in logs::all_shapes(3) {
        for mode in Mode::ALL {
            let log = logs::of_shape(&mut rng, &shape, logs::Values::Small);
            for a in 0..=log.len() {
                for b in a..=log.len() {
                    for c in b..=log.len() {
                        let cuts = [0, a, b, c, log.len()];
                        let row: Vec<Vec<u8>> = cuts.windows(2).map(|two| summary(&log[two[0]..two[1]], mode)).collect();
                        let joined =
                            |from: usize, to: usize| encode(&reference::summary::summary_of(mode, &log[cuts[from]..cuts[to]]));
                        assert_eq!(all_orders(&row, &[1, 2, 3, 4], &joined), 12);
                    }
                }
            }
        }
    }
}

#[test]
fn all_orders_of_forged_rows() {
    // The same of accepted bytes that no chunk makes: the reference merges them from the left.
    let mut rng = Rng::new(0x3e9);
    for round in 0..300 {
        let mode = Mode::ALL[round % 4];
        let stray = if round % 2 == 0 { 6 } else { 1000 };
        let row = bytes_of(&forged::neighbours(&mut rng, mode, 4, stray));
        let two = |left: Vec<u8>, right: &Vec<u8>| calls::merge(&left, right, AMPLE).expect("accepted");
        let joined = |from: usize, to: usize| row[from + 1..to].iter().fold(row[from].clone(), two);
        all_orders(&row, &[1, 2, 3, 4], &joined);
    }
}

#[test]
fn rows_of_chunks() {
    // Random cuts of logs, well formed and with each fault, in each mode: what is merged is the whole log's summary.
    let mut rng = Rng::new(0x3ea);
    for round in 0..400 {
        let log = match round % 8 {
            0 => logs::with_fault(&mut rng, 7),
            1 => logs::with_fault(&mut rng, 8),
            2 => logs::with_fault(&mut rng, 11),
            3 => logs::any_log(&mut rng, 400),
            _ => logs::any_log(&mut rng, 40),
        };
        let count = 2 + rng.below(if round % 8 == 3 { 63 } else { 9 });
        let chunks = logs::cut(&mut rng, &log, count);
        for mode in Mode::ALL {
            let row: Vec<Vec<u8>> = chunks.iter().map(|chunk| summary(chunk, mode)).collect();
            both_agree(&row);
            let whole = Ok(encode(&reference::summary::summary_of(mode, &log)));
            LentBytes::new(AMPLE).check(&whole, |out| raw::merge_row(&row.concat(), out));
        }
    }
}

#[test]
fn opened_100_000_and_100_001() {
    for opened in [99_999, 100_000, 100_001, 100_500] {
        let log = logs::flat(opened);
        for mode in Mode::ALL {
            let row = log.chunks(5000).map(|chunk| summary(chunk, mode)).collect::<Vec<_>>().concat();
            row_agrees(&row);
            // The stretch is longer than any chunk: some 2.4 MB.
            let whole = Ok(encode(&reference::summary::summary_of(mode, &log)));
            LentBytes::new(AMPLE).check(&whole, |out| raw::merge_row(&row, out));
        }
    }
}

#[test]
fn opened_at_its_edge_in_two() {
    let mut rng = Rng::new(0x3eb);
    for mode in Mode::ALL {
        for (left, right) in [(50_000, 50_000), (50_001, 50_000), (99_999, 1), (100_000, 1), (100_000, 100_000), (99_999, 2)] {
            for _ in 0..6 {
                let a = hill(&mut rng, mode, (0, 0, 1), left);
                let b = hill(&mut rng, mode, (1, 1, 1), right);
                let c = hill(&mut rng, mode, (1, 0, 0), right);
                both_agree(&bytes_of(&[a.clone(), b.clone()]));
                both_agree(&bytes_of(&[a.clone(), c.clone()]));
                both_agree(&bytes_of(&[a, b, c]));
            }
        }
        // Spoilt ones: opened is added and cut, and a fault of the join counts beside theirs.
        for fault in [7, 8, 9] {
            for opened in [0, 1, 50_000, 50_001, 99_999, 100_000, 100_001] {
                let opened = if fault == 9 { 100_001 } else { opened };
                let bad = spoilt(mode, fault, 2, 3, opened);
                for other in [
                    bad.clone(),
                    blank(mode),
                    spoilt(mode, 8, 3, 2, 50_000),
                    spoilt(mode, 7, 0, 0, 100_001),
                    hill(&mut rng, mode, (3, 1, 2), 99_999),
                    hill(&mut rng, mode, (5, 1, 2), 1),
                ] {
                    both_agree(&bytes_of(&[bad.clone(), other.clone()]));
                    both_agree(&bytes_of(&[other.clone(), bad.clone()]));
                    both_agree(&bytes_of(&[other, blank(mode), bad.clone()]));
                }
            }
        }
    }
}

#[test]
fn longest_summaries() {
    let mut rng = Rng::new(0x3ec);
    for mode in Mode::ALL {
        for opened in [63, 64, 1000, 1562] {
            let long = |rng: &mut Rng| hill(rng, mode, (64, 1, 64), opened);
            let two = bytes_of(&[long(&mut rng), long(&mut rng)]);
            assert_eq!((two[0].len(), two[1].len()), (LONGEST, LONGEST));
            both_agree(&two);
            for count in [3, 63, 64, 65] {
                let row: Vec<Summary> = (0..count).map(|_| long(&mut rng)).collect();
                both_agree(&bytes_of(&row));
            }
        }
        // 64 levels on one side, and on both sides of the join.
        for _ in 0..20 {
            let (down, up) = (hill(&mut rng, mode, (0, 0, 64), 40_000), hill(&mut rng, mode, (64, 0, 0), 60_000));
            let (flat, high) = (hill(&mut rng, mode, (64, 64, 64), 1), hill(&mut rng, mode, (64, 63, 64), 7));
            both_agree(&bytes_of(&[down.clone(), up.clone()]));
            both_agree(&bytes_of(&[down.clone(), flat.clone(), high.clone(), up.clone()]));
            both_agree(&bytes_of(&[up, down]));
            both_agree(&bytes_of(&[flat, high]));
        }
    }
}

#[test]
fn levels_at_both_ends() {
    // Each two hills whose start, peak and end are near an end of 0 to 64, and each of them beside spoilt ones.
    let mut rng = Rng::new(0x3ee);
    let near = [0, 1, 2, 63, 64];
    let all = near.iter().flat_map(|&start| near.iter().flat_map(move |&peak| near.map(|end| (start, peak, end))));
    let accepted = |&(start, peak, end): &(usize, usize, usize)| peak <= start.min(end) && (peak > 0 || start.min(end) == 0);
    let levels: Vec<_> = all.filter(accepted).collect();
    assert_eq!(levels.len(), 39);
    for (round, &left) in levels.iter().enumerate() {
        let mode = Mode::ALL[round % 4];
        for &right in &levels {
            let (one, two) = (hill(&mut rng, mode, left, 200), hill(&mut rng, mode, right, 200));
            both_agree(&bytes_of(&[one, two]));
        }
        for fault in [7, 8] {
            let (bad, other) = (spoilt(mode, fault, left.0, left.2, 1), hill(&mut rng, mode, left, 200));
            both_agree(&bytes_of(&[bad.clone(), other.clone()]));
            both_agree(&bytes_of(&[other, bad]));
        }
    }
}

#[test]
fn levels_past_a_byte() {
    // Summaries that would be accepted if their levels were cut to 8 bits: 5 wherever they stand.
    let mut rng = Rng::new(0x3ef);
    for _ in 0..4000 {
        let mode = rng.pick(&Mode::ALL);
        let (past, other) = (forged::past_a_byte(&mut rng, mode), forged_bytes(&mut rng, mode));
        let mut cut = past.clone();
        let high_bytes = if past[2] == 17 { &[9, 11][..] } else { &[7, 9, 11] };
        high_bytes.iter().for_each(|&at| cut[at] = 0);
        assert!(is_summary(&cut) && !is_summary(&past));
        for [left, right] in [[&past, &other], [&other, &past]] {
            let row = [left.as_slice(), right].concat();
            let answers = [merge_agrees(left, right), row_agrees(&row)].concat();
            assert!(answers.iter().all(|&answer| answer == -5));
        }
    }
}

#[test]
fn modes_5_before_6_and_12_last() {
    let mut rng = Rng::new(0x3ed);
    for left in Mode::ALL {
        for right in Mode::ALL {
            let two = [blank(left), blank(right)];
            both_agree(&bytes_of(&two));
            for place in 0..2 {
                let mut row = bytes_of(&two);
                row[place][2] = 15;
                both_agree(&row);
                row[place] = forged::out_of_use(&mut rng);
                both_agree(&row);
            }
            both_agree(&[forged_bytes(&mut rng, left), forged_bytes(&mut rng, right)]);
        }
    }
}
