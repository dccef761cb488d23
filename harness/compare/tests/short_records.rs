//! Short records with the floor 0, beside full ones with that floor and with the old one, and summaries that carry either: the proved
//! library against the reference, every byte of every buffer, and by the safe functions. What L8 says sentence by sentence, and its
//! laws, are put to the library by `document_02`.

use compare::agree::{self, every_call_on_chunk, every_call_on_row};
use compare::calls;
use reference::gen::logs::{self, all_shapes, encode_mostly_short, in_full, some_sent_before, OLD_FLOOR};
use reference::gen::raw::{all_of, close, nothing, open, short, Hill, MODES};
use reference::gen::{damage, Rng};
use reference::record::encode_all_short;
use std::slice::from_ref;
use tulghimo::{Figures, Kind, Mode, Record, Refusal, TableLine};

const LEAST: i32 = -1_000_000_000;
const GREATEST: i32 = 1_000_000_000;

#[test]
fn the_safe_functions_answer_floor_0() {
    for (depth, value) in [(0, LEAST), (0, 0), (63, -1), (63, GREATEST)] {
        let record = Record { kind: Kind::Open, length: 10, depth, value, floor: 0, ceiling: GREATEST, batch: 0 };
        assert_eq!(tulghimo::read_record(&short(depth.into(), value)), Ok(record));
        let full = Record { length: 18, floor: LEAST, ..record };
        assert_eq!(tulghimo::read_record(&open(depth.into(), value, LEAST, GREATEST)), Ok(full));
    }
    assert_eq!(tulghimo::read_record(&short(0, LEAST - 1)), Err(Refusal::Unreadable));
    assert_eq!(tulghimo::read_record(&short(0, -3)[..9]), Err(Refusal::Unreadable));
}

#[test]
fn the_other_safe_functions_take_it() {
    // 5 over -8: -3, raised to 0. Stamp 5 - 31 × 8 = -243 modulo 2^32.
    let log = [short(0, 5), short(1, -8), close(1), close(0)].concat();
    assert_eq!(tulghimo::day(&log), Ok(Figures { net: -3, heaviest: -3, eaten: 0, stamp: 4_294_967_053 }));
    let lines = [(0, 5), (1, -8)].map(|(depth, value)| TableLine { depth, value, floor: 0, ceiling: GREATEST });
    assert_eq!(tulghimo::read_table(&log), Ok(lines.to_vec()));
    let written = tulghimo::write_log(&lines).expect("the table of a log");
    assert_eq!(written, [open(0, 5, 0, GREATEST), open(1, -8, 0, GREATEST), close(1), close(0)].concat());
    assert_eq!(tulghimo::day(&written), tulghimo::day(&log));
    assert_eq!(tulghimo::heaviest_line(&log), Ok(vec![0, 1]));
    for log in [&log, &written] {
        let sheet = "     0  0                0\n     1  1               -8\n";
        assert_eq!(tulghimo::sheet(log, Mode::Eaten, 0).as_deref(), Ok(sheet));
        assert_eq!([tulghimo::common(log, 1, 0), tulghimo::common(log, 1, 1)], [Ok(0), Ok(1)]);
    }
}

/// Opens of a depth: of each value a short one, a full one with the new default and one with the old floor.
fn opens(depth: u16) -> Vec<Vec<u8>> {
    let of_value = |value| [short(depth, value), open(depth, value, 0, GREATEST), open(depth, value, LEAST, GREATEST)];
    [-3, 2].into_iter().flat_map(of_value).collect()
}

/// All logs of a shape with such opens: the records of each.
fn all_logs(shape: &[bool]) -> Vec<Vec<Vec<u8>>> {
    let mut level = 0;
    shape.iter().fold(vec![Vec::new()], |begun, &is_open| {
        let next = if is_open { opens(level) } else { vec![close(level - 1)] };
        level = if is_open { level + 1 } else { level - 1 };
        begun.iter().flat_map(|log: &Vec<_>| next.iter().map(|record| [&log[..], from_ref(record)].concat())).collect()
    })
}

#[test]
fn every_small_log_of_both_floors() {
    for shape in (1..=3).flat_map(all_shapes) {
        for log in all_logs(&shape) {
            every_call_on_chunk(&log.concat());
        }
    }
}

#[test]
fn four_records_of_both_floors() {
    // Well formed or not: of two depths each open of -3 grams, and a close.
    let records: Vec<Vec<u8>> = [0, 1].into_iter().flat_map(|depth| [&opens(depth)[..3], &[close(depth)]].concat()).collect();
    for count in 1..=4 {
        for chunk in all_of(&records, count) {
            every_call_on_chunk(&chunk);
        }
    }
}

#[test]
fn every_cut_of_small_logs_of_both_floors() {
    for shape in (1..=3).flat_map(all_shapes) {
        for log in all_logs(&shape) {
            for cut in 0..=log.len() {
                let chunks = [log[..cut].concat(), log[cut..].concat()];
                let row = chunks.map(|chunk| calls::summarise(&chunk, 5, 1788).expect("readable"));
                every_call_on_row(&row);
                agree::sent_before(&log.concat(), &row.concat(), 5);
            }
        }
    }
}

#[test]
fn old_and_new_floors_at_any_level() {
    for levels in [1, 2, 3, 17, 63, 64] {
        for mode in MODES {
            // Both by turns, the old one at one level, and the new one at one level.
            let old_at = |place: usize, which: usize| match which {
                0 => place.is_multiple_of(2),
                1 => place + 1 == usize::from(levels),
                _ => place != usize::from(levels) / 2,
            };
            for which in 0..3 {
                let mut down = Hill::empty(mode, 0, 0, levels, 200);
                for (place, record) in down.right.iter_mut().enumerate() {
                    *record = (-2, if old_at(place, which) { LEAST } else { 0 }, GREATEST, nothing(mode));
                }
                let up = Hill::empty(mode, levels, 0, 0, 200);
                every_call_on_row(&[down.bytes(), up.bytes()]);
                // Something below 0 at one level, on the left and on the right.
                if mode != 4 {
                    let (mut held, mut added) = (down.clone(), up.clone());
                    let place = usize::from(levels) / 2;
                    held.right[place].3 = -7;
                    added.left[place] = -7;
                    every_call_on_row(&[held.bytes(), up.bytes()]);
                    every_call_on_row(&[down.bytes(), added.bytes()]);
                }
            }
        }
    }
}

#[test]
fn random_rows_of_which_some_were_sent_before() {
    let mut rng = Rng::new(0x5f01);
    for round in 0..1000 {
        let log = logs::log_or_faulty(&mut rng, if round % 40 == 0 { 300 } else { 30 });
        let count = 2 + rng.below(if round % 40 == 0 { 63 } else { 8 });
        let chunks = logs::cut(&mut rng, &log, count);
        let sent = encode_mostly_short(&mut rng, &chunks);
        let sent = some_sent_before(&mut rng, &sent);
        for mode in MODES {
            let row: Vec<Vec<u8>> =
                sent.iter().map(|chunk| calls::summarise(chunk, mode.into(), 1788).expect("readable")).collect();
            every_call_on_row(&row);
            agree::sent_before(&sent.concat(), &row.concat(), mode);
        }
    }
}

#[test]
fn random_short_logs_and_damaged_ones() {
    let mut rng = Rng::new(0x5f02);
    for round in 0..1000 {
        let log = logs::log_or_faulty(&mut rng, if round % 40 == 0 { 3000 } else { 40 });
        let chunk = encode_all_short(&log);
        let full = in_full(&chunk, OLD_FLOOR);
        for bytes in [damage::damage(&mut rng, &chunk), damage::damage(&mut rng, &full), full, chunk] {
            every_call_on_chunk(&bytes);
        }
    }
}

#[test]
fn small_days_whenever_a_chunk_was_sent() {
    // Nothing is below 0 in them: eaten is n, whichever of the two floors the records have.
    for n in 1..=7u32 {
        let logs = calls::small_days(n, 54_912).expect("n from 1 to 8");
        for log in logs.chunks_exact(16 * n as usize) {
            for cut in (0..=log.len()).filter(|&cut| calls::summarise(&log[..cut], 5, 1788).is_ok()) {
                let (left, right) = log.split_at(cut);
                for chunks in [[in_full(left, OLD_FLOOR), right.to_vec()], [left.to_vec(), in_full(right, OLD_FLOOR)]] {
                    let row = chunks.map(|chunk| calls::summarise(&chunk, 5, 1788).expect("readable")).concat();
                    assert_eq!(calls::work(&row).map(|answer| answer.0), Ok(n.into()));
                    assert_eq!(calls::finish(&calls::merge_row(&row, 24).expect("summaries")), Ok(n.into()));
                }
            }
        }
    }
}
