//! The generated batches and records are what they are meant to be, and of all kinds.

use reference::calls::read_record;
use reference::gen::damage::nearly_a_record;
use reference::gen::logs::{any_log, batch, encode_mixed, rebatched, BATCHES};
use reference::gen::Rng;
use reference::record::{read_first, records_of};

#[test]
fn batches_are_of_all_kinds() {
    let mut rng = Rng::new(0x221);
    let drawn: Vec<u32> = (0..2000).map(|_| batch(&mut rng)).collect();
    for edge in BATCHES {
        assert!(drawn.iter().filter(|&&number| number == edge).count() > 50, "{edge}");
    }
    let others = drawn.iter().filter(|number| !BATCHES.contains(number));
    assert!(others.clone().filter(|&&number| number >= 1 << 31).count() > 300);
    assert!(others.filter(|&&number| number < 1 << 31).count() > 300);
}

/// The length and the batch of each record.
fn lengths_and_batches(mut chunk: &[u8]) -> Vec<(usize, Option<i64>)> {
    let mut found = Vec::new();
    while let Some(first) = read_first(chunk) {
        found.push((first.length, first.batch));
        chunk = &chunk[first.length..];
    }
    found
}

#[test]
fn rebatched_chunks_differ_in_batches_only() {
    let mut rng = Rng::new(0x222);
    // Batches put in, taken out, exchanged, and left as they were.
    let mut seen = [0; 4];
    for _ in 0..300 {
        let records = any_log(&mut rng, 20);
        let chunk = encode_mixed(&mut rng, &records);
        let other = rebatched(&mut rng, &chunk);
        assert_eq!(records_of(&other), Some(records));
        for (before, after) in lengths_and_batches(&chunk).into_iter().zip(lengths_and_batches(&other)) {
            match (before, after) {
                ((18, None), (22, Some(_))) => seen[0] += 1,
                ((22, Some(_)), (18, None)) => seen[1] += 1,
                ((22, Some(one)), (22, Some(other))) if one != other => seen[2] += 1,
                _ => {
                    assert_eq!(before, after);
                    seen[3] += 1;
                }
            }
        }
        // What is left of the last close, which is not readable, stays.
        let torn = &chunk[..chunk.len() - 1];
        assert!(rebatched(&mut rng, torn).ends_with(&torn[torn.len() - 5..]));
    }
    assert!(seen.iter().all(|&count| count > 300), "{seen:?}");
}

#[test]
fn records_are_whole_and_nearly_so() {
    let mut rng = Rng::new(0x223);
    let (mut read, mut one_short, mut refused) = (0, 0, 0);
    for _ in 0..4000 {
        let bytes = nearly_a_record(&mut rng);
        one_short += usize::from(bytes.len() == 21 && bytes[..4] == [22, 0, 1, 0]);
        match read_record(&bytes) {
            Ok([_, length, ..]) => read += usize::from(length == 22),
            Err(_) => refused += 1,
        }
    }
    assert!(read > 400 && one_short > 100 && refused > 400, "{read} {one_short} {refused}");
}
