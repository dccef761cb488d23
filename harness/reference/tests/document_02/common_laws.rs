//! L10 as laws, by who holds whom: the answer is each of the two or holds it, and no deeper record
//! is so; numbers exchanged, equal, and three of them; where one of the two is the answer; what is
//! refused; what makes no difference; and what other calls say. Of every small log and of random
//! ones. `compare` puts this to the library.

use crate::calls::{common, finish, heaviest_line, merge_row, read_table, small_days, summarise};
use crate::sheet_laws::{cut_out, figures};
use reference::gen::logs::{all_shapes, any_log, changed, cut, encode_mixed, grams, log_or_faulty, of_shape, rebatched};
use reference::gen::logs::{Values, VALUES};
use reference::gen::pairs::pair;
use reference::gen::raw::MODES;
use reference::gen::Rng;
use reference::log::{held, opens};
use reference::record::{encode_all, encode_all_short, Open, Record};
use std::collections::BTreeSet;

/// An opened record: its depth, and the numbers of those that it is or holds.
struct Opened {
    depth: usize,
    within: BTreeSet<u32>,
}

impl Opened {
    fn has_both(&self, [a, b]: [u32; 2]) -> bool {
        self.within.contains(&a) && self.within.contains(&b)
    }
}

/// The opened records of a log. A record holds those that it directly holds, and what they hold.
fn opened(log: &[Record]) -> Vec<Opened> {
    let places = opens(log);
    let number = |place| places.binary_search(&place).expect("an open record");
    let alone = |(number, &place): (u32, &usize)| Opened { depth: log[place].depth(), within: BTreeSet::from([number]) };
    let mut records: Vec<Opened> = (0..).zip(&places).map(alone).collect();
    // Those held have higher numbers.
    for (own, &place) in places.iter().enumerate().rev() {
        for later in held(log, place) {
            let inner = records[number(later)].within.clone();
            records[own].within.extend(inner);
        }
    }
    records
}

/// Whether a record is what is asked for, in the words of the request.
fn is_common(records: &[Opened], number: u32, both: [u32; 2]) -> bool {
    // "is each of them or holds it"
    let own = &records[number as usize];
    own.has_both(both)
        // "no deeper record may have the property"
        && records.iter().all(|other| other.depth <= own.depth || !other.has_both(both))
}

/// All records that are what is asked for.
fn all_common(records: &[Opened], both: [u32; 2]) -> Vec<u32> {
    (0..records.len() as u32).filter(|&number| is_common(records, number, both)).collect()
}

/// What two records of a well-formed log have in common.
fn of(log: &[u8], [a, b]: [u32; 2]) -> u32 {
    common(log, a, b).expect("a well-formed log that opens both")
}

/// A random log, now and then a long one.
fn random_log(rng: &mut Rng, round: usize) -> Vec<Record> {
    any_log(rng, if round.is_multiple_of(40) { 1500 } else { 50 })
}

/// How many records a log opens.
fn count(log: &[Record]) -> u32 {
    opens(log).len() as u32
}

/// Two numbers of a log, both there.
fn there(rng: &mut Rng, log: &[Record]) -> [u32; 2] {
    loop {
        let both = pair(rng, log);
        if both.iter().all(|&number| number < count(log)) {
            return both;
        }
    }
}

#[test]
fn just_one_record_on_every_small_log() {
    let mut rng = Rng::new(0xa11);
    for shape in (1..=6).flat_map(all_shapes) {
        let log = of_shape(&mut rng, &shape, Values::Small);
        let bytes = encode_mixed(&mut rng, &log);
        let records = opened(&log);
        for a in 0..count(&log) {
            for b in 0..count(&log) {
                assert_eq!(all_common(&records, [a, b]), [of(&bytes, [a, b])], "records {a} and {b}");
            }
        }
    }
}

#[test]
fn just_one_record_on_random_logs() {
    let mut rng = Rng::new(0xa12);
    // The answer's depths, and how many answers are neither of the two.
    let (mut depths, mut neither) = (BTreeSet::new(), 0);
    for round in 0..400 {
        let log = random_log(&mut rng, round);
        let bytes = encode_mixed(&mut rng, &log);
        let records = opened(&log);
        for _ in 0..8 {
            let both = there(&mut rng, &log);
            let answer = of(&bytes, both);
            assert!(is_common(&records, answer, both), "{answer} of {both:?}");
            assert!(records.len() > 100 || all_common(&records, both) == [answer], "{answer} of {both:?}");
            depths.insert(records[answer as usize].depth);
            neither += usize::from(!both.contains(&answer));
        }
    }
    assert!(depths.len() > 40 && depths.contains(&63) && neither > 500, "{depths:?} {neither}");
}

#[test]
fn the_same_either_way_round() {
    let mut rng = Rng::new(0xa13);
    let mut seen = [0; 20];
    for round in 0..2000 {
        let log = if round % 4 == 0 { random_log(&mut rng, round / 4) } else { log_or_faulty(&mut rng, 20) };
        let bytes = encode_mixed(&mut rng, &log);
        let [a, b] = pair(&mut rng, &log);
        let answer = common(&bytes, a, b);
        assert_eq!(common(&bytes, b, a), answer, "records {a} and {b}");
        seen[usize::from(answer.err().unwrap_or(0))] += 1;
    }
    assert!([0, 7, 8, 10, 11, 19].iter().all(|&number| seen[number] > 50), "{seen:?}");
}

#[test]
fn a_number_twice_and_three_in_any_order() {
    let mut rng = Rng::new(0xa14);
    for round in 0..400 {
        let log = random_log(&mut rng, round);
        let bytes = encode_mixed(&mut rng, &log);
        let ([a, b], c) = (there(&mut rng, &log), rng.below(opens(&log).len()) as u32);
        assert_eq!([of(&bytes, [a, a]), of(&bytes, [c, c])], [a, c]);
        // What the first two have in common with the third, whichever these are.
        let all = of(&bytes, [of(&bytes, [a, b]), c]);
        assert_eq!(of(&bytes, [a, of(&bytes, [b, c])]), all, "records {a}, {b} and {c}");
        assert_eq!(of(&bytes, [b, of(&bytes, [c, a])]), all, "records {a}, {b} and {c}");
    }
}

#[test]
fn one_of_the_two_where_it_is_or_holds_the_other() {
    let mut rng = Rng::new(0xa15);
    let mut seen = [[0; 2]; 2];
    for round in 0..400 {
        let log = random_log(&mut rng, round);
        let bytes = encode_mixed(&mut rng, &log);
        let records = opened(&log);
        for _ in 0..6 {
            let [a, b] = there(&mut rng, &log);
            let answer = of(&bytes, [a, b]);
            let [first, second] = [(a, b), (b, a)].map(|(one, other)| records[one as usize].within.contains(&other));
            assert_eq!([answer == a, answer == b], [first, second], "records {a} and {b}");
            seen[usize::from(first)][usize::from(second)] += 1;
        }
    }
    assert!(seen.iter().flatten().all(|&count| count > 100), "{seen:?}");
}

#[test]
fn nineteen_where_a_number_is_not_below_the_opened_count() {
    let mut rng = Rng::new(0xa16);
    // Both are there, the first alone, the second alone, neither.
    let mut seen = [[0; 2]; 2];
    for round in 0..3000 {
        let log = random_log(&mut rng, 1 + round);
        let [a, b] = pair(&mut rng, &log);
        let [first, second] = [a, b].map(|number| number < count(&log));
        let refusal = common(&encode_mixed(&mut rng, &log), a, b).err();
        assert_eq!(refusal, (!first || !second).then_some(19), "records {a} and {b} of {}", count(&log));
        seen[usize::from(first)][usize::from(second)] += 1;
    }
    assert!(seen.iter().flatten().all(|&count| count > 100), "{seen:?}");
}

#[test]
fn faults_get_their_numbers_as_at_finish() {
    let mut rng = Rng::new(0xa17);
    let mut seen = [0; 12];
    for round in 0..2000 {
        let log = log_or_faulty(&mut rng, 20);
        let chunks = cut(&mut rng, &log, 3);
        let mode = MODES[round % 4].into();
        let summary = |chunk: &Vec<Record>| summarise(&encode_mixed(&mut rng, chunk), mode, 1788).expect("readable");
        let row: Vec<u8> = chunks.iter().flat_map(summary).collect();
        let fault = finish(&merge_row(&row, 1788).expect("three summaries")).err();
        let bytes = encode_mixed(&mut rng, &log);
        assert_eq!(common(&bytes, 0, 0).err(), fault);
        // Whatever is asked for.
        for [a, b] in [[0, u32::MAX], [u32::MAX, 0], [u32::MAX; 2], [5000, 65_536]] {
            assert_eq!(common(&bytes, a, b).err(), fault.or(Some(19)));
        }
        seen[usize::from(fault.unwrap_or(0))] += 1;
    }
    assert!([0, 7, 8, 10, 11].iter().all(|&fault| seen[fault] > 50), "{seen:?}");
}

#[test]
fn values_floors_ceilings_and_batches_make_no_difference() {
    let mut rng = Rng::new(0xa18);
    for round in 0..500 {
        let log = random_log(&mut rng, round);
        let values = rng.pick(&VALUES);
        let others = changed(&log, |open| {
            let (one, other) = (grams(&mut rng, values), grams(&mut rng, values));
            Open { depth: open.depth, value: grams(&mut rng, values), floor: one.min(other), ceiling: one.max(other) }
        });
        // With other grams, and some with a batch; with other batches alone; and short.
        let bytes = encode_all(&log);
        let same = [encode_mixed(&mut rng, &others), rebatched(&mut rng, &bytes), encode_all_short(&log)];
        for _ in 0..3 {
            let [a, b] = pair(&mut rng, &log);
            let answer = common(&bytes, a, b);
            assert!(same.iter().all(|other| common(other, a, b) == answer), "records {a} and {b}");
        }
    }
}

#[test]
fn of_all_small_days_the_smallest_that_holds_both() {
    // Each record has 1 gram: net counts those that a record is or holds, and they follow it.
    for n in 1..=8 {
        for log in small_days(n, 54_912).expect("n from 1 to 8").chunks(16 * n as usize) {
            let sizes: Vec<u32> = figures(log, 1).into_iter().map(|figure| figure as u32).collect();
            let has = |record: u32, number| (record..record + sizes[record as usize]).contains(&number);
            for (a, b) in (0..n).flat_map(|a| (0..n).map(move |b| (a, b))) {
                let with_both = (0..n).filter(|&record| has(record, a) && has(record, b));
                let smallest = with_both.min_by_key(|&record| sizes[record as usize]);
                assert_eq!(Some(of(log, [a, b])), smallest, "records {a} and {b}");
            }
        }
    }
}

#[test]
fn the_last_line_of_the_table_with_only_deeper_ones_to_both() {
    let mut rng = Rng::new(0xa19);
    for round in 0..500 {
        let log = random_log(&mut rng, round);
        let bytes = encode_mixed(&mut rng, &log);
        let table = read_table(&bytes, 65_520).expect("a well-formed log");
        let depths: Vec<u8> = table.chunks(14).map(|line| line[0]).collect();
        for _ in 0..4 {
            let both = there(&mut rng, &log);
            let [first, last] = [both[0].min(both[1]) as usize, both[0].max(both[1]) as usize];
            let holds = |&line: &usize| depths[line + 1..=last].iter().all(|&depth| depth > depths[line]);
            assert_eq!(Some(of(&bytes, both) as usize), (0..=first).rev().find(holds), "records {both:?}");
        }
    }
}

#[test]
fn within_a_subtree_as_within_the_log() {
    let mut rng = Rng::new(0xa1a);
    for round in 0..500 {
        let log = random_log(&mut rng, round);
        let bytes = encode_mixed(&mut rng, &log);
        // A record to its close as a log of its own; there it has the number 0.
        let first = rng.below(opens(&log).len());
        let own = cut_out(&log, opens(&log)[first]);
        let own_bytes = encode_mixed(&mut rng, &own);
        for _ in 0..3 {
            let both = there(&mut rng, &own);
            let moved = both.map(|number| number + first as u32);
            assert_eq!(of(&bytes, moved), of(&own_bytes, both) + first as u32, "records {moved:?}");
        }
    }
}

#[test]
fn along_the_heaviest_line_the_upper_one() {
    let mut rng = Rng::new(0xa1b);
    for round in 0..200 {
        let log = random_log(&mut rng, round);
        let bytes = encode_mixed(&mut rng, &log);
        let line = heaviest_line(&bytes, 256).expect("a well-formed log");
        let numbers: Vec<u32> = line.chunks(4).map(|number| u32::from_le_bytes(number.try_into().expect("4 bytes"))).collect();
        for pair in numbers.windows(2) {
            assert_eq!(of(&bytes, [pair[1], pair[0]]), pair[0]);
        }
        let last = numbers[numbers.len() - 1];
        assert_eq!(of(&bytes, [last, 0]), 0);
    }
}
