//! Records with a batch: the proved library against the reference, every byte of every buffer, and by the safe functions. What L2 says
//! of them sentence by sentence is put to the library by `document_02`.

use compare::agree::{self, every_call_on_chunk as all_agree};
use reference::gen::logs::{self, BATCHES};
use reference::gen::raw::{all_of, batched, close, open, short, MODES};
use reference::gen::{damage, Rng};
use std::path::Path;
use tulghimo::{Figures, Kind, Mode, Record, Refusal, TableLine};

#[test]
fn the_safe_functions_answer_the_batch() {
    for batch in BATCHES {
        let bytes = batched(63, -5, -6, -4, batch);
        let record = Record { kind: Kind::Open, length: 22, depth: 63, value: -5, floor: -6, ceiling: -4, batch };
        assert_eq!(tulghimo::read_record(&bytes), Ok(record));
        assert_eq!(tulghimo::read_record(&[&bytes[..], &[0xff; 9]].concat()), Ok(record));
        // One byte missing; a close of this length; a depth of 64.
        assert_eq!(tulghimo::read_record(&bytes[..21]), Err(Refusal::Unreadable));
        for (place, value) in [(2, 2), (4, 64)] {
            let mut changed = bytes.clone();
            changed[place] = value;
            assert_eq!(tulghimo::read_record(&changed), Err(Refusal::Unreadable));
        }
        // Of length 18 it has none, whatever comes next.
        let full = Record { length: 18, batch: 0, ..record };
        assert_eq!(tulghimo::read_record(&[open(63, -5, -6, -4), bytes].concat()), Ok(full));
    }
}

#[test]
fn the_other_safe_functions_drop_it() {
    for batch in BATCHES {
        let log = [batched(0, 5, 0, 9, batch), short(1, -2), close(1), close(0)].concat();
        // 5 - 2; stamp 5 - 31 × 2 = -57 modulo 2^32.
        assert_eq!(tulghimo::day(&log), Ok(Figures { net: 3, heaviest: 3, eaten: 3, stamp: 4_294_967_239 }));
        let lines = [
            TableLine { depth: 0, value: 5, floor: 0, ceiling: 9 },
            TableLine { depth: 1, value: -2, floor: 0, ceiling: 1_000_000_000 },
        ];
        assert_eq!(tulghimo::read_table(&log), Ok(lines.to_vec()));
        let written = [open(0, 5, 0, 9), open(1, -2, 0, 1_000_000_000), close(1), close(0)].concat();
        assert_eq!(tulghimo::write_log(&lines), Ok(written));
        assert_eq!(tulghimo::heaviest_line(&log), Ok(vec![0, 1]));
        let sheet = "     0  0                3\n     1  1               -2\n";
        assert_eq!(tulghimo::sheet(&log, Mode::Net, 0).as_deref(), Ok(sheet));
        assert_eq!([tulghimo::common(&log, 1, 0), tulghimo::common(&log, 1, 1)], [Ok(0), Ok(1)]);
    }
}

#[test]
fn every_byte_of_a_batch() {
    // In a log of three records with batches, each byte of the middle one's.
    let [first, last] = [batched(0, 1, -9, 9, 0x0102_0304), batched(1, 3, 2, 4, u32::MAX)];
    for place in 0..4 {
        for value in 0..=255 {
            let mut middle = batched(1, 7, 0, 5, 0x8000_0001);
            middle[18 + place] = value;
            let log = [&first[..], &middle, &close(1), &last, &close(1), &close(0)].concat();
            all_agree(&log);
            all_agree(&log[22..]);
            // 1 + 7 + 3; 1 + 7; 1 + 7 + 3 lowered to 9; 1 + 31 × 10.
            assert_eq!(compare::calls::day(&log), Ok([11, 8, 9, 311]));
        }
    }
}

#[test]
fn lengths_and_kinds_around_22() {
    // Each length and kind in the head of a record, with as many bytes there and a few fewer and more; alone, and within a log.
    for length in 16..=28 {
        for kind in 0..=3 {
            for there in 4..=30 {
                let mut record = batched(0, 1, 0, 9, 0x0001_000a);
                record.resize(there.max(22), 0xff);
                record.truncate(there);
                (record[0], record[2]) = (length, kind);
                all_agree(&record);
                all_agree(&[&record[..], &close(0)].concat());
                record[4..5.min(there)].fill(1);
                all_agree(&[&short(0, 1)[..], &record, &close(1), &close(0)].concat());
            }
        }
    }
}

#[test]
fn four_records_of_all_lengths() {
    // Of two depths an open of each length and a close. The batch looks like a short open: were it read as a record, that would have
    // its depth and its value from the record that follows.
    let of_depth = |depth| [short(depth, 5), open(depth, 5, -1, 3), batched(depth, 5, -1, 3, 0x0001_000a), close(depth)];
    let records = [of_depth(0), of_depth(1)].concat();
    for count in 1..=4 {
        for chunk in all_of(&records, count) {
            all_agree(&chunk);
        }
    }
}

/// A log with open records of all lengths, now and then a long one or one with a fault.
fn mixed_log(rng: &mut Rng) -> Vec<u8> {
    let most = if rng.one_in(40) { 3000 } else { 40 };
    let log = logs::log_or_faulty(rng, most);
    logs::encode_mixed(rng, &log)
}

#[test]
fn random_logs_of_all_lengths() {
    let mut rng = Rng::new(0xba1);
    for _ in 0..1200 {
        let log = mixed_log(&mut rng);
        all_agree(&log);
        all_agree(&damage::damage(&mut rng, &log));
        all_agree(&damage::nearly_a_record(&mut rng));
    }
}

#[test]
fn logs_that_differ_in_batches_only() {
    let mut rng = Rng::new(0xba2);
    let mut taken = 0;
    for round in 0..1200 {
        let log = mixed_log(&mut rng);
        for chunk in [damage::damage(&mut rng, &log), log] {
            let other = logs::rebatched(&mut rng, &chunk);
            let answers = agree::batches_only(&chunk, &other, MODES[round % 4].into());
            taken += usize::from(chunk != other && answers == [0; 7]);
        }
    }
    assert!(taken > 600, "{taken}");
}

#[test]
fn chunks_at_the_longest() {
    // 2,340 records with a batch, of 22 and 6 bytes, and a short one of 10 and 6.
    let held = [batched(1, 1, -7, 7, 9), close(1)].concat().repeat(2339);
    let mut log = [batched(0, 1, -7, 7, 8), held, short(1, 1), close(1), close(0)].concat();
    assert_eq!(log.len(), 65_536);
    assert!(compare::calls::day(&log).is_ok());
    all_agree(&log);
    // A byte fewer, a byte more, and a batch more.
    all_agree(&log[..65_535]);
    log.push(0);
    all_agree(&log);
    let one_more = [&log[..65_514], &batched(1, 1, 0, 1_000_000_000, 7), &close(1), &close(0)].concat();
    assert_eq!(compare::calls::day(&one_more), Err(2));
    all_agree(&one_more);
}

/// Whether a file of the repository has these bytes in it.
fn has(file: &str, bytes: &[u8]) -> bool {
    let path = Path::new(env!("CARGO_MANIFEST_DIR")).join("../..").join(file);
    std::fs::read(path).expect(file).windows(bytes.len()).any(|window| window == bytes)
}

const ARCHIVE: &str = "target/staticlib/libtulghimo.a";

#[test]
fn the_old_name_is_gone() {
    // A program that calls it with six fields does not link.
    assert!(has(ARCHIVE, b"tulghimo_read_record\0") && !has(ARCHIVE, b"tulghimo_read\0"));
    let header = "include/tulghimo.h";
    assert!(has(header, b"tulghimo_read_record(const uint8_t *chunk, size_t n, int64_t fields[7]);"));
    assert!(!has(header, b"tulghimo_read("));
}

#[test]
fn reading_is_inlined_into_every_pass() {
    // As a function of its own it makes a pass over records take about half as many instructions again, or more.
    assert!(has(ARCHIVE, b"tulghimo_summarise\0") && !has(ARCHIVE, b"record::read_first"));
}
