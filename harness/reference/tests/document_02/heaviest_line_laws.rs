//! L7: the sentences themselves, held against the records by who holds whom, of every small
//! log and of random ones; that just one list of numbers has what they ask; and what makes no
//! difference. `compare` puts this to the library.

use crate::calls::{day, finish, heaviest_line, merge_row, read_table, small_days, summarise, work};
use reference::gen::logs::{all_shapes, any_log, cut, encode_mixed, log, log_or_faulty, log_with_ties, of_shape, rebatched};
use reference::gen::logs::{changed, grams, Shape, Values, VALUES};
use reference::gen::raw::{close, short, MODES};
use reference::gen::Rng;
use reference::log::{closer, held, opens};
use reference::record::{encode_all, encode_all_short, records_of, Open, Record, GRAMS};
use reference::tree::open_at;

/// No line is longer.
const AMPLE: usize = 256;

/// An opened record: its value, the numbers of those that it directly holds, its mode 2 figure.
struct Opened {
    value: i64,
    held: Vec<usize>,
    figure: i64,
}

/// The opened records of a log, "counted from 0 in log order".
fn opened(log: &[Record]) -> Vec<Opened> {
    let places = opens(log);
    let number = |place| places.binary_search(&place).expect("an open record");
    let plain =
        |&place| Opened { value: open_at(log, place).value, held: held(log, place).into_iter().map(number).collect(), figure: 0 };
    let mut records: Vec<Opened> = places.iter().map(plain).collect();
    // "v + the greatest held figure; v alone if it holds none". Those held have higher numbers.
    for number in (0..records.len()).rev() {
        let greatest = records[number].held.iter().map(|&later| records[later].figure).max();
        records[number].figure = records[number].value + greatest.unwrap_or(0);
    }
    records
}

/// Whether numbers are what is asked for, in the words of the request.
fn is_line(records: &[Opened], numbers: &[usize]) -> bool {
    let steps = || numbers.windows(2).map(|pair| (&records[pair[0]], pair[1]));
    // "from the root down to one that holds nothing"
    numbers.first() == Some(&0)
        && numbers.last().is_some_and(|&last| records[last].held.is_empty())
        // "Each directly holds the next"
        && steps().all(|(holder, next)| holder.held.contains(&next))
        // "the values add to the mode 2 figure"
        && numbers.iter().map(|&number| records[number].value).sum::<i64>() == records[0].figure
        // "at each step the earliest record that reaches it is taken"
        && steps().all(|(holder, next)| {
            holder.held.iter().all(|&other| other >= next || records[other].figure != records[next].figure)
        })
}

/// The numbers that a call gives for a log.
fn line(log: &[u8]) -> Vec<usize> {
    let bytes = heaviest_line(log, AMPLE).expect("a well-formed log");
    bytes.chunks(4).map(|number| u32::from_le_bytes(number.try_into().expect("4 bytes")) as usize).collect()
}

/// A random log, now and then a long one, in half of the cases with many equal figures.
fn random_log(rng: &mut Rng, round: usize) -> Vec<Record> {
    let most = if round.is_multiple_of(49) { 2000 } else { 50 };
    if round.is_multiple_of(2) {
        any_log(rng, most)
    } else {
        log_with_ties(rng, most)
    }
}

/// What finish and the work along the plan give for a log that is cut anywhere and merged.
fn cut_and_merged(rng: &mut Rng, log: &[Record], mode: u32) -> [Result<i64, u8>; 2] {
    let count = 2 + rng.below(7);
    let chunks = cut(rng, log, count);
    let summary = |chunk: &Vec<Record>| summarise(&encode_mixed(rng, chunk), mode, 1788).expect("readable records");
    let row: Vec<u8> = chunks.iter().flat_map(summary).collect();
    let merged = merge_row(&row, 1788).expect("2 to 8 summaries");
    [finish(&merged), work(&row).map(|(figure, _, _)| figure)]
}

#[test]
fn every_sentence_on_random_logs() {
    let mut rng = Rng::new(0x711);
    for round in 0..1500 {
        let log = random_log(&mut rng, round);
        let bytes = encode_mixed(&mut rng, &log);
        let (records, numbers) = (opened(&log), line(&bytes));
        assert!(is_line(&records, &numbers), "{numbers:?}");
        // The figure is the one that other calls give.
        assert_eq!(day(&bytes).map(|figures| figures[1]), Ok(records[0].figure));
        assert_eq!(cut_and_merged(&mut rng, &log, 2), [Ok(records[0].figure); 2]);
        // No held record has a greater figure than the one that is taken.
        for pair in numbers.windows(2) {
            let figures = records[pair[0]].held.iter().map(|&other| records[other].figure);
            assert_eq!(figures.max(), Some(records[pair[1]].figure));
        }
    }
}

/// All lists of numbers below a count that rise, as those of a line do: a record is opened
/// after the one that holds it.
fn all_lists(count: usize) -> Vec<Vec<usize>> {
    (0..1 << count).map(|choice: usize| (0..count).filter(|number| choice >> number & 1 == 1).collect()).collect()
}

#[test]
fn just_one_list_of_numbers_on_every_small_log() {
    for count in 1..=6 {
        let lists = all_lists(count);
        for shape in all_shapes(count) {
            let log = of_shape(&mut Rng::new(0x712), &shape, Values::Small);
            // Each value -1, 0 or 1, in all ways.
            for choice in 0..3i64.pow(count as u32) {
                let mut rest = choice;
                let log = changed(&log, |open| {
                    let value = rest % 3 - 1;
                    rest /= 3;
                    Open { value, ..open }
                });
                let records = opened(&log);
                let right: Vec<&Vec<usize>> = lists.iter().filter(|numbers| is_line(&records, numbers)).collect();
                assert_eq!(right, [&line(&encode_all(&log))]);
            }
        }
    }
}

#[test]
fn of_all_small_days_the_first_of_the_longest_lines() {
    // Each record has 1 gram: the line goes down to the first that is as deep as any.
    for n in 1..=8 {
        for log in small_days(n, 54_912).expect("n from 1 to 8").chunks(16 * n as usize) {
            let records = records_of(log).expect("readable records");
            let depths: Vec<usize> = records.iter().filter(|record| record.is_open()).map(Record::depth).collect();
            let deepest = *depths.iter().max().expect("a record");
            let last = depths.iter().position(|&depth| depth == deepest).expect("a record");
            // What holds a record is the last before it that is one depth less deep.
            let due = (0..=deepest).map(|depth| depths[..=last].iter().rposition(|&other| other == depth).expect("a record"));
            assert_eq!(line(log), due.collect::<Vec<_>>());
        }
    }
}

#[test]
fn the_lines_of_the_table_that_it_names() {
    let mut rng = Rng::new(0x713);
    for round in 0..1000 {
        let log = random_log(&mut rng, round);
        let bytes = encode_mixed(&mut rng, &log);
        let table = read_table(&bytes, 65_520).expect("a well-formed log");
        let field = |number: usize, from: usize, to: usize| &table[14 * number + from..14 * number + to];
        let depth = |number| usize::from(u16::from_le_bytes(field(number, 0, 2).try_into().expect("2 bytes")));
        let value = |number| i64::from(i32::from_le_bytes(field(number, 2, 6).try_into().expect("4 bytes")));
        let numbers = line(&bytes);
        // One of each depth from 0 on, and the last is followed by none that is deeper.
        assert!(numbers.iter().enumerate().all(|(place, &number)| depth(number) == place));
        let last = numbers[numbers.len() - 1];
        assert!(14 * (last + 1) == table.len() || depth(last + 1) <= depth(last));
        assert_eq!(day(&bytes).map(|figures| figures[1]), Ok(numbers.into_iter().map(value).sum()));
    }
}

#[test]
fn faults_get_their_numbers_as_at_finish() {
    let mut rng = Rng::new(0x714);
    let mut seen = [0; 12];
    for round in 0..2000 {
        let log = log_or_faulty(&mut rng, 20);
        let bytes = encode_mixed(&mut rng, &log);
        let mode = MODES[round % 4].into();
        let fault = finish(&summarise(&bytes, mode, 1788).expect("readable records")).err();
        assert_eq!(cut_and_merged(&mut rng, &log, mode).map(|answer| answer.err()), [fault; 2]);
        // Whatever buffer is lent.
        assert_eq!(heaviest_line(&bytes, AMPLE).err(), fault);
        assert_eq!(heaviest_line(&bytes, 3).err(), fault.or(Some(12)));
        seen[usize::from(fault.unwrap_or(0))] += 1;
    }
    assert!([0, 7, 8, 10, 11].iter().all(|&fault| seen[fault] > 50), "{seen:?}");
}

#[test]
fn what_the_first_record_weighs_makes_no_difference() {
    let mut rng = Rng::new(0x715);
    for round in 0..500 {
        let log = random_log(&mut rng, round);
        let numbers = line(&encode_all(&log));
        for value in [-GRAMS, 0, GRAMS] {
            let other = changed(&log, |open| if open.depth == 0 { Open { value, ..open } } else { open });
            assert_eq!(line(&encode_all(&other)), numbers);
        }
    }
}

#[test]
fn floors_ceilings_and_batches_make_no_difference() {
    let mut rng = Rng::new(0x716);
    for round in 0..500 {
        let log = random_log(&mut rng, round);
        let numbers = line(&encode_all(&log));
        // Floors and ceilings drawn anew, some records of length 22; then all short.
        let values = rng.pick(&VALUES);
        let other = changed(&log, |open| {
            let (one, other) = (grams(&mut rng, values), grams(&mut rng, values));
            Open { floor: one.min(other), ceiling: one.max(other), ..open }
        });
        assert_eq!(line(&rebatched(&mut rng, &encode_all(&other))), numbers);
        assert_eq!(line(&encode_all_short(&log)), numbers);
    }
}

#[test]
fn the_unit_of_weight_makes_no_difference() {
    let mut rng = Rng::new(0x717);
    for round in 0..500 {
        let values = rng.pick(&[Values::Few, Values::Small]);
        let shape = rng.pick(&[Shape::Flat, Shape::Bushy, Shape::Deep, Shape::Any]);
        let log = log(&mut rng, shape, values, if round % 20 == 0 { 1000 } else { 40 });
        let numbers = line(&encode_all(&log));
        // 20 grams, the most there are, become 10^9.
        for unit in [2, 1000, 50_000_000] {
            let heavier = changed(&log, |open| Open { value: unit * open.value, ..open });
            assert_eq!(line(&encode_all(&heavier)), numbers, "times {unit}");
        }
    }
}

/// A record of depth 1 and a value that holds nothing.
fn leaf(value: i64) -> Vec<u8> {
    [short(1, value as i32), close(1)].concat()
}

#[test]
fn one_more_record_before_and_after_all_others() {
    let mut rng = Rng::new(0x718);
    let mut tried = 0;
    for round in 0..1000 {
        let values = rng.pick(&[Values::Few, Values::Small]);
        let log = log(&mut rng, Shape::Any, values, 2 + round % 40);
        let records = opened(&log);
        let greatest = records[0].figure - records[0].value;
        let bytes = encode_all(&log);
        // The first open has length 18, and the last close 6.
        let with = |before: Vec<u8>, after: Vec<u8>| {
            line(&[&bytes[..18], &before, &bytes[18..bytes.len() - 6], &after, &bytes[bytes.len() - 6..]].concat())
        };
        let numbers = line(&bytes);
        let moved: Vec<usize> = numbers.iter().map(|&number| if number == 0 { 0 } else { number + 1 }).collect();
        // Before the others it is taken from the same figure on, after them from one more on.
        assert_eq!(with(leaf(greatest - 1), vec![]), moved);
        assert_eq!(with(leaf(greatest), vec![]), [0, 1]);
        assert_eq!(with(vec![], leaf(greatest)), numbers);
        assert_eq!(with(vec![], leaf(greatest + 1)), [0, records.len()]);
        assert_eq!(with(leaf(greatest), leaf(greatest)), [0, 1]);
        tried += usize::from(numbers.len() > 2);
    }
    assert!(tried > 500, "{tried}");
}

#[test]
fn the_rest_is_the_line_of_what_is_held() {
    let mut rng = Rng::new(0x719);
    let mut tried = 0;
    for round in 0..1000 {
        let log = random_log(&mut rng, round);
        let numbers = line(&encode_all(&log));
        if let [0, next, ..] = numbers[..] {
            // The record that is taken first, to its close, as a log of its own.
            let first = opens(&log)[next];
            let last = closer(&log, first).expect("a record that is closed");
            let own: Vec<Record> = log[first..=last].iter().map(one_up).collect();
            let rest: Vec<usize> = numbers[1..].iter().map(|number| number - next).collect();
            assert_eq!(line(&encode_all(&own)), rest);
            tried += 1;
        }
    }
    assert!(tried > 500, "{tried}");
}

/// The record one depth further up.
fn one_up(record: &Record) -> Record {
    match record {
        Record::Open(open) => Record::Open(Open { depth: open.depth - 1, ..*open }),
        Record::Close { depth } => Record::Close { depth: depth - 1 },
    }
}

#[test]
fn a_line_reads_as_a_log_of_its_own() {
    // The records of the line alone make a chain with the same figure, and its line is all of it.
    let mut rng = Rng::new(0x71a);
    for round in 0..500 {
        let log = random_log(&mut rng, round);
        let bytes = encode_mixed(&mut rng, &log);
        let numbers = line(&bytes);
        let opened: Vec<Record> = log.iter().filter(|record| record.is_open()).copied().collect();
        let mut chain: Vec<Record> = numbers.iter().map(|&number| opened[number]).collect();
        chain.extend((0..numbers.len()).rev().map(|depth| Record::Close { depth }));
        let chain = encode_all(&chain);
        assert_eq!(line(&chain), (0..numbers.len()).collect::<Vec<_>>());
        assert_eq!(day(&chain).map(|figures| figures[1]), day(&bytes).map(|figures| figures[1]));
    }
}
