//! L8 as laws: a short record is the full one with floor 0; what the old floor leaves as it is;
//! and old and new summaries in one row, each record by the floor of the stretch that opened it.
//! Of every small log and of random ones. `compare` puts this to the library.

use crate::calls::{common, day, finish, heaviest_line, merge, merge_row, plan, read_record, read_table, runs, small_days};
use crate::calls::{summarise, work, write_log};
use crate::drop_laws::{eaten, numbers, BETWEEN};
use crate::sheet_laws::pages;
use reference::gen::damage::{damage, nearly_a_record};
use reference::gen::logs::{all_shapes, any_log, changed, cut, encode_mixed, log_or_faulty, log_with_ties, of_shape, Values};
use reference::gen::logs::{encode_mostly_short, in_full, some_sent_before, OLD_FLOOR};
use reference::gen::raw::{close, short, MODES};
use reference::gen::Rng;
use reference::record::{encode_all, encode_all_short, records_of, Open, Record};

/// No summary, no plan, no runs and no heaviest line are longer.
const AMPLE: usize = 4750;

/// No log written is longer, and no table read.
const LONG: usize = 65_520;

/// A log, now and then a longer one.
fn drawn(rng: &mut Rng, round: usize) -> Vec<Record> {
    any_log(rng, if round.is_multiple_of(40) { 1500 } else { 40 })
}

#[test]
fn a_short_record_is_the_full_one_with_floor_0() {
    let mut rng = Rng::new(0x811);
    for _ in 0..1000 {
        let log = log_or_faulty(&mut rng, 60);
        for chunk in [encode_all_short(&log), encode_mixed(&mut rng, &log)] {
            let full = in_full(&chunk, 0);
            for mode in MODES {
                assert_eq!(summarise(&chunk, mode.into(), AMPLE), summarise(&full, mode.into(), AMPLE));
                assert_eq!(pages(&chunk, mode), pages(&full, mode));
            }
            assert_eq!(day(&chunk), day(&full));
            assert_eq!(read_table(&chunk, LONG), read_table(&full, LONG));
            assert_eq!(heaviest_line(&chunk, AMPLE), heaviest_line(&full, AMPLE));
            assert_eq!(common(&chunk, 1, 2), common(&full, 1, 2));
        }
    }
}

#[test]
fn eaten_is_the_recursion_with_the_floor_of_each_default() {
    let mut rng = Rng::new(0x812);
    // Logs whose eaten moved.
    let mut differ = 0;
    for round in 0..2000 {
        let log = drawn(&mut rng, round);
        let short = encode_all_short(&log);
        let [now, before] =
            [0, OLD_FLOOR].map(|floor| eaten(&changed(&log, |open| Open { floor, ceiling: 1_000_000_000, ..open })));
        assert_eq!(day(&short).map(|figures| figures[2]), Ok(now));
        assert_eq!(day(&in_full(&short, OLD_FLOOR)).map(|figures| figures[2]), Ok(before));
        differ += usize::from(now != before);
    }
    assert!((500..1900).contains(&differ), "{differ}");
}

#[test]
fn net_heaviest_and_stamp_do_not_move() {
    let mut rng = Rng::new(0x813);
    let mut eaten_moves = 0;
    for round in 0..1500 {
        let log = if round % 4 == 0 { log_with_ties(&mut rng, 60) } else { drawn(&mut rng, round) };
        for chunk in [encode_all_short(&log), encode_mixed(&mut rng, &log)] {
            let before = in_full(&chunk, OLD_FLOOR);
            let [now_figures, then_figures] = [&chunk, &before].map(|log| day(log).expect("a well-formed log"));
            for place in [0, 1, 3] {
                assert_eq!(now_figures[place], then_figures[place]);
            }
            eaten_moves += usize::from(now_figures[2] != then_figures[2]);
            assert_eq!(heaviest_line(&chunk, AMPLE), heaviest_line(&before, AMPLE));
            assert_eq!(common(&chunk, 1, 2), common(&before, 1, 2));
            for mode in [1, 2, 4] {
                assert_eq!(pages(&chunk, mode), pages(&before, mode));
            }
        }
    }
    assert!(eaten_moves > 500, "{eaten_moves}");
}

#[test]
fn where_nothing_is_negative_eaten_does_not_move() {
    let mut rng = Rng::new(0x814);
    for round in 0..1000 {
        // Values and ceilings at least 0.
        let log = changed(&drawn(&mut rng, round), |open| Open { value: open.value.abs(), ceiling: open.ceiling.abs(), ..open });
        for chunk in [encode_all_short(&log), encode_mixed(&mut rng, &log)] {
            assert_eq!(day(&chunk), day(&in_full(&chunk, OLD_FLOOR)));
        }
    }
}

#[test]
fn every_small_day_has_the_figures_that_it_had() {
    for n in 1..=8 {
        let logs = small_days(n, LONG).expect("n from 1 to 8");
        for log in logs.chunks_exact(16 * n as usize) {
            let before = in_full(log, OLD_FLOOR);
            assert_eq!(before.len(), 24 * n as usize);
            assert_eq!(day(log), day(&before));
            assert_eq!(day(log).map(|figures| figures[2]), Ok(n.into()));
            assert_eq!(heaviest_line(log, AMPLE), heaviest_line(&before, AMPLE));
        }
    }
}

#[test]
fn the_table_of_a_short_log_writes_a_log_with_its_figures() {
    let mut rng = Rng::new(0x815);
    for round in 0..1000 {
        let log = drawn(&mut rng, round);
        let short = encode_all_short(&log);
        let table = read_table(&short, LONG).expect("a well-formed log");
        // Each line: floor 0 and ceiling 10^9.
        assert!(table.chunks(14).all(|line| line[6..] == [0, 0, 0, 0, 0, 202, 154, 59]));
        let written = write_log(&table, LONG).expect("the table of a log");
        assert_eq!(written, in_full(&short, 0));
        assert_eq!(day(&written), day(&short));
        // Of a log of all lengths the lines of full records are as they were.
        let mixed = encode_mixed(&mut rng, &log);
        let back = write_log(&read_table(&mixed, LONG).expect("a well-formed log"), LONG);
        assert_eq!(back, Ok(encode_all(&records_of(&in_full(&mixed, 0)).expect("readable"))));
    }
}

#[test]
fn refusals_are_those_of_before() {
    // Put to the library this sees a reader that refuses too much; on the reference alone it
    // cannot, since `in_full` reads by the same reader.
    let mut rng = Rng::new(0x816);
    let mut refused = 0;
    for _ in 0..2000 {
        let log = log_or_faulty(&mut rng, 30);
        let chunk = encode_all_short(&log);
        for chunk in [damage(&mut rng, &chunk), nearly_a_record(&mut rng), chunk] {
            let before = in_full(&chunk, OLD_FLOOR);
            assert_eq!(read_record(&chunk).err(), read_record(&before).err());
            assert_eq!(day(&chunk).err(), day(&before).err());
            assert_eq!(read_table(&chunk, LONG).err(), read_table(&before, LONG).err());
            for mode in MODES.map(u32::from) {
                assert_eq!(summarise(&chunk, mode, AMPLE).err(), summarise(&before, mode, AMPLE).err());
            }
            refused += usize::from(read_record(&chunk) == Err(3));
        }
    }
    assert!(refused > 500, "{refused}");
}

/// The summaries of chunks in a mode.
fn summaries(chunks: &[Vec<u8>], mode: u16) -> Vec<Vec<u8>> {
    chunks.iter().map(|chunk| summarise(chunk, mode.into(), AMPLE).expect("readable records")).collect()
}

/// Merged pair by pair at random places, each time to the summary of the joined stretches.
fn merged(rng: &mut Rng, chunks: &[Vec<u8>], mode: u16) -> Vec<u8> {
    let (mut stretches, mut row) = (chunks.to_vec(), summaries(chunks, mode));
    while row.len() > 1 {
        let place = rng.below(row.len() - 1);
        let joined = stretches[place..place + 2].concat();
        let written = merge(&row[place], &row[place + 1], AMPLE).expect("of one mode");
        assert_eq!(summarise(&joined, mode.into(), AMPLE).as_ref(), Ok(&written));
        stretches.splice(place..place + 2, [joined]);
        row.splice(place..place + 2, [written]);
    }
    row.remove(0)
}

/// All that old and new summaries of these chunks lead to, in every mode. A chunk that was sent
/// before has its short records in full, with the floor that they had. Gives eaten.
fn of_each_floor(rng: &mut Rng, chunks: &[Vec<u8>]) -> i64 {
    let log = chunks.concat();
    let records = records_of(&log).expect("readable records");
    let figures = day(&log).expect("a well-formed log");
    assert_eq!(figures[2], eaten(&records));
    for (mode, figure) in MODES.into_iter().zip(figures) {
        let row = summaries(chunks, mode).concat();
        let whole = merged(rng, chunks, mode);
        assert_eq!(finish(&whole), Ok(figure), "mode {mode}");
        assert_eq!(merge_row(&row, 24), Ok(whole));
        assert_eq!(work(&row).map(|answer| answer.0), Ok(figure), "mode {mode}");
        // Who joins whom has nothing to do with floors, nor has a run but in mode 5.
        let now: Vec<Vec<u8>> = chunks.iter().map(|chunk| encode_all_short(&records_of(chunk).expect("readable"))).collect();
        let all_short = summaries(&now, mode).concat();
        assert_eq!(plan(&row, AMPLE), plan(&all_short, AMPLE));
        if mode != 5 {
            assert_eq!(runs(&row, AMPLE), runs(&all_short, AMPLE));
        }
    }
    figures[2]
}

#[test]
fn old_and_new_chunks_in_one_row() {
    let mut rng = Rng::new(0x817);
    // Neither what all old ones come to nor what all new ones do.
    let mut between = 0;
    for round in 0..1200 {
        let log = any_log(&mut rng, if round % 40 == 0 { 300 } else { 30 });
        let count = 2 + rng.below(if round % 40 == 0 { 63 } else { 9 });
        let chunks = cut(&mut rng, &log, count);
        let short = encode_mostly_short(&mut rng, &chunks);
        let sent = some_sent_before(&mut rng, &short);
        let figure = of_each_floor(&mut rng, &sent);
        let [all_new, all_old] = [0, OLD_FLOOR].map(|floor| day(&in_full(&short.concat(), floor)).expect("a well-formed log")[2]);
        between += usize::from(figure != all_new && figure != all_old);
    }
    assert!(between > 60, "{between}");
}

#[test]
fn every_cut_and_every_age_of_small_logs() {
    let mut rng = Rng::new(0x818);
    for shape in (1..=4).flat_map(all_shapes) {
        let log = of_shape(&mut rng, &shape, Values::Small);
        for first in 0..=log.len() {
            for second in first..=log.len() {
                let short = [&log[..first], &log[first..second], &log[second..]].map(encode_all_short);
                for which in 0..8 {
                    let aged = |place: usize| {
                        if which >> place & 1 == 1 {
                            in_full(&short[place], OLD_FLOOR)
                        } else {
                            short[place].clone()
                        }
                    };
                    of_each_floor(&mut rng, &[aged(0), aged(1), aged(2)]);
                }
            }
        }
    }
}

#[test]
fn runs_of_old_and_new_chunks() {
    // Two chunks, and nothing or a closed record of x grams between them: what the run gives for
    // nothing and makes of x is eaten of the whole log, each record with its own floor.
    let mut rng = Rng::new(0x819);
    // Runs that give another number for nothing than if all chunks were new.
    let mut moved = 0;
    for _ in 0..1000 {
        let log = any_log(&mut rng, 8);
        let (left, right) = log.split_at(1 + rng.below(log.len() - 1));
        let level = right[0].start_level() as u16;
        let all_short = [left, right].map(encode_all_short);
        let sent = some_sent_before(&mut rng, &all_short);
        let [z, a, l, h] = numbers(&runs(&summaries(&sent, 5).concat(), 38).expect("one line"))[0];
        let eaten_of = |log: &[u8]| eaten(&records_of(log).expect("readable records"));
        assert_eq!(z, eaten_of(&sent.concat()));
        moved += usize::from(z != eaten_of(&all_short.concat()));
        for x in BETWEEN {
            let whole = [&sent[0][..], &short(level, x), &close(level), &sent[1]].concat();
            assert_eq!((i64::from(x) + a).max(l).min(h), eaten_of(&whole));
        }
    }
    assert!(moved > 100, "{moved}");
}
