//! Summarise and finish: the proved library against the reference, every byte of every buffer.

use compare::agree::{finish as finish_agrees, summarise as agree};
use reference::calls;
use reference::gen::raw::MODES;
use reference::gen::{damage, forged, logs, Rng};
use reference::layout::encode;
use reference::mode::Mode;
use reference::record::{encode_all, encode_close, encode_full, encode_short, Open, Record};

const AMPLE: usize = 4096;

/// A chunk in each mode, and the finish of its summary.
fn all_modes(chunk: &[u8]) {
    for mode in MODES.map(u32::from) {
        agree(chunk, mode);
        if let Ok(summary) = calls::summarise(chunk, mode, AMPLE) {
            finish_agrees(&summary);
        }
    }
}

fn open(depth: usize, value: i64) -> Record {
    Record::Open(Open { depth, value, floor: -7, ceiling: 9 })
}

fn close(depth: usize) -> Record {
    Record::Close { depth }
}

#[test]
fn modes_out_of_use_get_1() {
    for mode in [0, 3, 6, 7, 255, 256, 257, 259, 261, 65_535, 65_536, 65_537, 65_541, u32::MAX] {
        for chunk in [vec![], vec![0xff; 70_000], encode_close(0)] {
            assert!(agree(&chunk, mode).iter().all(|&answer| answer == -1), "{mode}");
        }
    }
}

#[test]
fn small_chunks() {
    all_modes(&[]);
    all_modes(&encode_close(1));
    all_modes(&encode_all(&[open(0, 3), close(0), open(0, 4), close(0)]));
    all_modes(&encode_all(&[open(0, 3), open(0, 4)]));
    all_modes(&encode_all(&[open(0, 10), open(1, -3), close(1), close(0)]));
}

#[test]
fn every_pair_of_faults() {
    // Each of these records next to each other one, and a third: levels that meet and that do not, level 0 between.
    let records: Vec<Record> = (0..3).flat_map(|depth| [open(depth, 5), close(depth)]).collect();
    for a in &records {
        for b in &records {
            for c in &records {
                all_modes(&encode_all(&[*a, *b, *c]));
            }
        }
    }
}

#[test]
fn an_unreadable_record_comes_before_a_fault() {
    let mut chunk = encode_all(&[open(0, 3), open(0, 4)]);
    chunk.extend([1, 2, 3]);
    all_modes(&chunk);
    chunk.truncate(chunk.len() - 1);
    all_modes(&chunk);
}

#[test]
fn full_chunks_and_one_byte_more() {
    // 65,536 bytes: some 4,090 pairs of 16 bytes (an open of 10 and a close of 6) within an outer record, padded by full opens.
    let mut chunk = encode_full(&Open { depth: 0, value: 1, floor: 0, ceiling: 1000 });
    while chunk.len() + 16 + 6 <= 65_536 - 32 {
        chunk.extend(encode_short(1, 3));
        chunk.extend(encode_close(1));
    }
    while chunk.len() < 65_536 - 6 {
        let left = 65_536 - 6 - chunk.len();
        if left.is_multiple_of(16) {
            chunk.extend(encode_short(1, 2));
        } else {
            chunk.extend(encode_full(&Open { depth: 1, value: -4, floor: -5, ceiling: 5 }));
        }
        chunk.extend(encode_close(1));
        assert!(chunk.len() <= 65_536);
    }
    chunk.extend(encode_close(0));
    assert_eq!(chunk.len(), 65_536);
    all_modes(&chunk);
    chunk.push(0);
    all_modes(&chunk);
}

#[test]
fn all_64_levels() {
    let down: Vec<Record> = (0..64).map(|depth| open(depth, depth as i64 - 30)).collect();
    let up: Vec<Record> = (0..64).rev().map(close).collect();
    all_modes(&encode_all(&down));
    all_modes(&encode_all(&up));
    all_modes(&encode_all(&[down.clone(), up.clone()].concat()));
    all_modes(&encode_all(&[&up[..], &down[..]].concat()));
    all_modes(&encode_all(&[&up[..63], &down[1..]].concat()));
    for cut in 0..=128 {
        let log = [down.clone(), up.clone()].concat();
        all_modes(&encode_all(&log[..cut]));
        all_modes(&encode_all(&log[cut..]));
    }
}

#[test]
fn random_chunks_of_random_logs() {
    let mut rng = Rng::new(0x5a11);
    for round in 0..1200 {
        let log = logs::any_log(&mut rng, if round % 10 == 0 { 300 } else { 30 });
        for chunk in logs::cut(&mut rng, &log, 3) {
            let bytes = logs::encode_mixed(&mut rng, &chunk);
            all_modes(&bytes);
            agree(&damage::damage(&mut rng, &bytes), MODES[round % 4].into());
        }
    }
}

#[test]
fn logs_with_each_fault() {
    let mut rng = Rng::new(0xfa17);
    // No chunk has 9: at most 6,553 opens of 10 bytes fit 65,536. `demand_3` has logs with it, cut into many chunks.
    for fault in [7, 8, 10, 11] {
        for _ in 0..200 {
            let log = logs::with_fault(&mut rng, fault);
            let bytes = logs::encode_mixed(&mut rng, &log);
            if bytes.len() <= 65_536 {
                all_modes(&bytes);
            }
        }
    }
}

#[test]
fn finish_of_forged_and_damaged_summaries() {
    let mut rng = Rng::new(0xf17);
    for _ in 0..6000 {
        let mode = rng.pick(&Mode::ALL);
        let summary = encode(&forged::summary(&mut rng, mode));
        finish_agrees(&summary);
        finish_agrees(&damage::damage(&mut rng, &summary));
        finish_agrees(&damage::noise(&mut rng, 60));
    }
}

#[test]
fn every_byte_of_a_summary_changed() {
    // Each byte of summaries of all three kinds set to values at the ends, for question 5.
    let mut rng = Rng::new(0xb17e);
    for mode in Mode::ALL {
        for _ in 0..12 {
            let summary = encode(&forged::summary(&mut rng, mode));
            for place in 0..summary.len().min(120) {
                for value in [0, 1, 0x7f, 0x80, 0xff, summary[place] ^ 1] {
                    let mut changed = summary.clone();
                    changed[place] = value;
                    finish_agrees(&changed);
                }
            }
        }
    }
}
