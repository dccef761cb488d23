//! "Records": what is readable, levels, faults, who closes and holds whom.

use reference::calls::read_record;
use reference::gen::raw::{batched, close, open, short, words};
use reference::log::{closer, fault, held};
use reference::record::{encode_close, encode_full, encode_short, encode_with_batch, records_of, Open, Record};
use reference::tree::{figure_by_holding, figures};

const LEAST: i32 = -1_000_000_000;
const GREATEST: i32 = 1_000_000_000;

#[test]
fn fields_of_a_first_record() {
    assert_eq!(read_record(&open(3, 1, -2, 7)), Ok([1, 18, 3, 1, -2, 7, 0]));
    // Document 02, L8: "The default floor becomes 0".
    assert_eq!(read_record(&short(3, -1)), Ok([1, 10, 3, -1, 0, 1_000_000_000, 0]));
    assert_eq!(read_record(&close(3)), Ok([2, 6, 3, 0, 0, 0, 0]));
}

#[test]
fn later_bytes_are_not_judged() {
    for record in [open(3, 1, -2, 7), short(3, -1), close(3)] {
        let alone = read_record(&record);
        assert!(alone.is_ok());
        let mut long = record.clone();
        long.resize(70_000, 0xff);
        assert_eq!(read_record(&long), alone);
        // Each byte of the record itself must be there.
        for length in 0..record.len() {
            assert_eq!(read_record(&record[..length]), Err(3));
        }
    }
}

#[test]
fn lengths_that_suit_a_kind() {
    for kind in [0u16, 1, 2, 3, 16, 257, 258, 0x8001, 0xffff] {
        for length in 0u16..64 {
            let mut bytes = words(&[length, kind]);
            bytes.resize(64, 0);
            // Document 02: "Length 22 now suits kind 1."
            let suits = matches!((kind, length), (1, 18) | (1, 10) | (1, 22) | (2, 6));
            assert_eq!(read_record(&bytes).is_ok(), suits, "kind {kind} length {length}");
        }
    }
    for length in [0x0112u16, 0x8012, 0x010a, 0x0106, 0x0116] {
        let mut bytes = words(&[length, 1]);
        bytes.resize(0x8012, 0);
        assert_eq!(read_record(&bytes), Err(3));
    }
}

#[test]
fn grams_at_both_ends() {
    let far = [i32::MIN, LEAST - 1, GREATEST + 1, i32::MAX];
    let near = [LEAST, LEAST + 1, -1, 0, 1, GREATEST - 1, GREATEST];
    for value in near {
        let as_value = i64::from(value);
        assert_eq!(read_record(&open(0, value, LEAST, GREATEST)).map(|fields| fields[3]), Ok(as_value));
        assert_eq!(read_record(&short(0, value)).map(|fields| fields[3]), Ok(as_value));
        assert_eq!(read_record(&open(0, 0, value, value)).map(|fields| (fields[4], fields[5])), Ok((as_value, as_value)));
    }
    for value in far {
        assert_eq!(read_record(&open(0, value, 0, 0)), Err(3));
        assert_eq!(read_record(&short(0, value)), Err(3));
        assert_eq!(read_record(&open(0, 0, value, GREATEST)), Err(3));
        assert_eq!(read_record(&open(0, 0, LEAST, value)), Err(3));
    }
}

#[test]
fn the_reference_writes_what_the_paper_lays_out() {
    let record = Open { depth: 63, value: -1_000_000_000, floor: -2, ceiling: 70_000 };
    assert_eq!(encode_full(&record), open(63, LEAST, -2, 70_000));
    assert_eq!(encode_with_batch(&record, 0xfedc_ba98), batched(63, LEAST, -2, 70_000, 0xfedc_ba98));
    assert_eq!(encode_short(5, -7), short(5, -7));
    assert_eq!(encode_close(62), close(62));
}

#[test]
fn the_rest_is_read_as_a_chunk_of_its_own() {
    let good = [open(0, 10, 0, 100), close(0)].concat();
    assert_eq!(records_of(&good).map(|records| records.len()), Some(2));
    // One unreadable record anywhere, or bytes left over, spoil the chunk.
    assert_eq!(records_of(&[close(64), good.clone()].concat()), None);
    assert_eq!(records_of(&[good.clone(), vec![0]].concat()), None);
    assert_eq!(records_of(&good[..good.len() - 1]), None);
}

fn log(text: &str) -> Vec<Record> {
    // "(0 (1 )1 )0": an open or a close and its depth; opens count 1, 2, 4, ..
    let mut value = 1;
    text.split_whitespace()
        .map(|word| {
            let depth = word[1..].parse().unwrap();
            if word.starts_with(')') {
                return Record::Close { depth };
            }
            let record = Open { depth, value, floor: -1_000_000_000, ceiling: 1_000_000_000 };
            value *= 2;
            Record::Open(record)
        })
        .collect()
}

#[test]
fn the_lowest_fault_of_a_log() {
    let cases = [
        ("", Some(10)),
        ("(0 )0", None),
        ("(0 (1 )1 (1 (2 )2 )1 )0", None),
        // 11: begins or ends elsewhere.
        ("(0", Some(11)),
        (")0", Some(11)),
        ("(1 )1", Some(11)),
        ("(0 (1 )1", Some(11)),
        (")1 (1 )1 )0", Some(11)),
        // 8: level 0 between two records; lower than 11.
        ("(0 )0 (0 )0", Some(8)),
        ("(0 )0 (0", Some(8)),
        (")0 (0 (1 )1", Some(8)),
        // 7: two neighbours do not meet; lower than 8 and 11.
        ("(0 (0", Some(7)),
        ("(0 )1 )0", Some(7)),
        ("(0 (2 )2 )0", Some(7)),
        ("(0 )0 )0", Some(7)),
        ("(0 )0 (0 )0 (1 )0", Some(7)),
    ];
    for (text, expected) in cases {
        assert_eq!(fault(&log(text)), expected, "{text}");
    }
}

#[test]
fn who_closes_and_holds_whom() {
    // Places: 0 (0, 1 (1, 2 (2, 3 )2, 4 )1, 5 (1, 6 )1, 7 )0.
    let whole = log("(0 (1 (2 )2 )1 (1 )1 )0");
    let closers: Vec<_> = [0, 1, 2, 5].map(|place| closer(&whole, place)).to_vec();
    assert_eq!(closers, [Some(7), Some(4), Some(3), Some(6)]);
    let holds: Vec<_> = [0, 1, 2, 5].map(|place| held(&whole, place)).to_vec();
    assert_eq!(holds, [vec![1, 5], vec![2], vec![], vec![]]);
    // Unclosed: "or, if no such close follows, after the open".
    let part = log("(1 (2 )2 (2 (3 )3");
    assert_eq!(closer(&part, 0), None);
    assert_eq!(held(&part, 0), [1, 3]);
    assert_eq!(closer(&part, 3), None);
    assert_eq!(held(&part, 3), [4]);
    // A record after the close is not held: 0 (1, 1 )1, 2 (2 does not meet, but is
    // after the close all the same.
    assert_eq!(held(&log("(1 )1 (2"), 0), Vec::<usize>::new());
}

#[test]
fn every_record_has_a_figure_of_its_own() {
    // Values 1, 2, 4, 8 in log order: 1 holds 2 and 8, 2 holds 4.
    let whole = log("(0 (1 (2 )2 )1 (1 )1 )0");
    use reference::mode::Mode::{Eaten, Heaviest, Net, Stamp};
    assert_eq!(figures(Net, &whole), [(0, 15), (1, 6), (2, 4), (5, 8)]);
    // 1 + the greater of 6 and 8.
    assert_eq!(figures(Heaviest, &whole), [(0, 9), (1, 6), (2, 4), (5, 8)]);
    assert_eq!(figures(Eaten, &whole), [(0, 15), (1, 6), (2, 4), (5, 8)]);
    // 2 + 31 × 4 = 126; 1 + 31 × (126 + 8) = 4155.
    assert_eq!(figures(Stamp, &whole), [(0, 4155), (1, 126), (2, 4), (5, 8)]);
    assert_eq!(figure_by_holding(Stamp, &whole, 1), 126);
}
