//! Reading the first record: the proved library against the reference and against the documents.

use compare::agree::read_record as agree;
use compare::LentNumbers;
use reference::gen::raw::{batched, open};
use reference::gen::{damage, logs, Rng};
use reference::record::{encode_all, encode_close, encode_short};

const LIMIT: i64 = 1_000_000_000;

fn read(chunk: &[u8]) -> (i64, [i64; 7]) {
    LentNumbers::default().lend(|fields| tulghimo::raw::read_record(chunk, fields))
}

const REFUSED: (i64, [i64; 7]) = (-3, [compare::UNTOUCHED; 7]);

#[test]
fn the_first_record_of_log_d() {
    // open 0 value 10 floor 0 ceiling 100; later bytes are not judged.
    let mut chunk = open(0, 10, 0, 100);
    assert_eq!(read(&chunk), (0, [1, 18, 0, 10, 0, 100, 0]));
    chunk.extend([0xff; 7]);
    assert_eq!(read(&chunk), (0, [1, 18, 0, 10, 0, 100, 0]));
}

#[test]
fn a_short_open_has_the_default_floor_and_ceiling() {
    assert_eq!(read(&[10, 0, 1, 0, 5, 0, 0xfd, 0xff, 0xff, 0xff]), (0, [1, 10, 5, -3, 0, LIMIT, 0]));
}

#[test]
fn a_close_answers_three_zeros() {
    // And a batch of 0, as every record that has none.
    assert_eq!(read(&[6, 0, 2, 0, 7, 0]), (0, [2, 6, 7, 0, 0, 0, 0]));
}

#[test]
fn an_empty_chunk_is_refused() {
    assert_eq!(read(&[]), REFUSED);
}

#[test]
fn depth_63_is_read_and_64_is_not() {
    let records =
        [(open(63, 0, 0, 0), 18, 1), (batched(63, 0, 0, 0, 9), 22, 1), (encode_short(63, 0), 10, 1), (encode_close(63), 6, 2)];
    for (bytes, length, kind) in records {
        let (status, fields) = read(&bytes);
        assert_eq!((status, &fields[..3]), (0, &[kind, length, 63][..]));
        let mut deeper = bytes.clone();
        deeper[4] = 64;
        assert_eq!(read(&deeper), REFUSED);
        deeper[4] = 63;
        deeper[5] = 1;
        assert_eq!(read(&deeper), REFUSED);
    }
}

#[test]
fn both_ends_of_every_range() {
    let ends = [-LIMIT - 1, -LIMIT, -LIMIT + 1, -1, 0, 1, LIMIT - 1, LIMIT, LIMIT + 1, i64::from(i32::MIN), i64::from(i32::MAX)];
    for value in ends {
        for floor in ends {
            for ceiling in ends {
                let inside = |n: i64| (-LIMIT..=LIMIT).contains(&n);
                let fits = inside(value) && inside(floor) && inside(ceiling) && floor <= ceiling;
                let [v, f, c] = [value, floor, ceiling].map(|number| number as i32);
                for (chunk, length, batch) in [(open(9, v, f, c), 18, 0), (batched(9, v, f, c, 4_000_000_000), 22, 4_000_000_000)] {
                    let expected = if fits { (0, [1, length, 9, value, floor, ceiling, batch]) } else { REFUSED };
                    assert_eq!(read(&chunk), expected, "{value} {floor} {ceiling}");
                    agree(&chunk);
                }
            }
        }
        let mut short = encode_short(9, 0);
        short[6..].copy_from_slice(&(value as i32).to_le_bytes());
        agree(&short);
    }
}

#[test]
fn floor_equal_to_ceiling_is_read() {
    for both in [-LIMIT, -1, 0, 1, LIMIT] {
        assert_eq!(read(&open(3, 4, both as i32, both as i32)), (0, [1, 18, 3, 4, both, both, 0]));
    }
}

#[test]
fn every_kind_and_length() {
    // Each pairing of kind and length in bytes that would else be readable; both fields are tried past 8 bits too.
    let past = [256 + 6, 256 + 10, 256 + 18, 256 + 22, 257, 258, 6 << 8, 18 << 8, 22 << 8, u16::MAX];
    let numbers: Vec<u16> = (0..=40).chain(past).collect();
    for &kind in &numbers {
        for &length in &numbers {
            let mut chunk = batched(2, 5, 1, 9, 70_000);
            chunk.resize(64, 0);
            chunk[..2].copy_from_slice(&length.to_le_bytes());
            chunk[2..4].copy_from_slice(&kind.to_le_bytes());
            let (status, fields) = read(&chunk);
            let expected = match (kind, length) {
                (1, 22) => (0, [1, 22, 2, 5, 1, 9, 70_000]),
                (1, 18) => (0, [1, 18, 2, 5, 1, 9, 0]),
                (1, 10) => (0, [1, 10, 2, 5, 0, LIMIT, 0]),
                (2, 6) => (0, [2, 6, 2, 0, 0, 0, 0]),
                _ => REFUSED,
            };
            assert_eq!((status, fields), expected, "kind {kind}, length {length}");
            agree(&chunk);
        }
    }
}

#[test]
fn every_truncation() {
    for bytes in [batched(1, -3, 0, 100, u32::MAX), open(1, -3, 0, 100), encode_short(1, -3), encode_close(1)] {
        for length in 0..bytes.len() {
            assert_eq!(read(&bytes[..length]), REFUSED, "{length} bytes of {bytes:?}");
        }
        assert_eq!(read(&bytes).0, 0);
        agree(&bytes);
    }
}

#[test]
fn a_chunk_of_any_length() {
    for length in [65_536, 65_537, 200_000] {
        let mut chunk = encode_close(0);
        chunk.resize(length, 0xaa);
        assert_eq!(read(&chunk), (0, [2, 6, 0, 0, 0, 0, 0]));
    }
}

#[test]
fn random_records_and_damaged_ones() {
    let mut rng = Rng::new(0x7ead);
    for _ in 0..4_000 {
        let records = logs::any_log(&mut rng, 4);
        for chunk in [encode_all(&records), logs::encode_mixed(&mut rng, &records)] {
            agree(&chunk);
            agree(&damage::damage(&mut rng, &chunk));
        }
        agree(&damage::nearly_a_record(&mut rng));
        agree(&damage::noise(&mut rng, 24));
    }
}
