//! The log out of the day table, and the table out of a log: the proved library against the reference, every byte of every buffer.

use compare::agree::{read_table as table_agrees, write_log as log_agrees};
use reference::calls;
use reference::gen::raw::{all_of, line, longest_log};
use reference::gen::{damage, logs, tables, Rng};
use reference::record::{encode_all, encode_close, encode_full, encode_short, Open};
use reference::table::encode_table;

const LIMIT: i32 = 1_000_000_000;

/// The log written from a table and, where there is one, the table read back from it.
fn both_agree(table: &[u8]) {
    log_agrees(table);
    if let Ok(log) = calls::write_log(table, 65_520) {
        table_agrees(&log);
    }
}

/// Every answer is this refusal.
fn assert_refused(answers: &[i64], number: u8) {
    assert!(answers.iter().all(|&answer| answer == -i64::from(number)), "{answers:?}, and {number} is due");
}

#[test]
fn all_depths_of_six_lines() {
    let lines: Vec<Vec<u8>> = (0..=6).map(|depth| line(depth, 5, -1, 3)).collect();
    for count in 0..=6 {
        for table in all_of(&lines, count) {
            both_agree(&table);
        }
    }
}

#[test]
fn all_small_tables_of_good_and_bad_lines() {
    // Of each depth a good line, and one with each amount past its range or a floor above its ceiling.
    let amounts = [(-3, -LIMIT, LIMIT), (LIMIT + 1, 0, 0), (0, -LIMIT - 1, 0), (0, 0, LIMIT + 1), (0, 1, 0)];
    let of_depth = |depth| amounts.map(|(value, floor, ceiling)| line(depth, value, floor, ceiling));
    let lines = [0, 1, 2, 64].map(of_depth).concat();
    for count in 0..=3 {
        for table in all_of(&lines, count) {
            both_agree(&table);
        }
    }
}

#[test]
fn both_ends_of_every_range() {
    let ends = [i32::MIN, -LIMIT - 1, -LIMIT, -LIMIT + 1, -1, 0, 1, LIMIT - 1, LIMIT, LIMIT + 1, i32::MAX];
    for value in ends {
        for floor in ends {
            for ceiling in ends {
                both_agree(&[line(0, 0, 0, 0), line(1, value, floor, ceiling)].concat());
            }
        }
    }
}

#[test]
fn every_depth_after_every_other() {
    // Down to a depth, and then to any; some would be another depth if one of their bytes were left out.
    let down: Vec<u8> = (0..=63).flat_map(|depth| line(depth, 1, 2, 3)).collect();
    for deepest in 0..=63 {
        for depth in (0..=66).chain([0x0100, 0x0101, 0x3f00, 0x4001, 0x8001, 0xffff]) {
            both_agree(&[&down[..14 * (deepest + 1)], &line(depth, 4, 5, 6)].concat());
        }
    }
}

#[test]
fn tables_of_every_length() {
    let mut rng = Rng::new(0x7ab1);
    let table = encode_table(&tables::typed(&mut rng, 12));
    for length in 0..=table.len() {
        both_agree(&table[..length]);
        both_agree(&table[length..]);
    }
    let table = encode_table(&tables::typed(&mut rng, tables::MOST_LINES + 2));
    for length in [38_206, 38_219, 38_220, 38_221, 38_233, 38_234, 38_235, 38_248] {
        both_agree(&table[..length]);
    }
    for length in [65_520, 65_536, 65_537, 200_000] {
        both_agree(&vec![0; length]);
    }
}

#[test]
fn random_tables_and_damaged_ones() {
    let mut rng = Rng::new(0x7ab2);
    for round in 0..4000 {
        let lines = if round % 80 == 0 { tables::MOST_LINES } else { 1 + rng.below(40) };
        let table = tables::any_table(&mut rng, lines);
        both_agree(&encode_table(&table));
        both_agree(&tables::damaged(&mut rng, &table));
        both_agree(&damage::noise(&mut rng, 60));
    }
}

#[test]
fn tables_with_each_refusal() {
    let mut rng = Rng::new(0x7ab3);
    for refusal in [2, 3, 10, 13] {
        for _ in 0..200 {
            assert_refused(&log_agrees(&tables::with_refusal(&mut rng, refusal)), refusal);
        }
    }
}

#[test]
fn every_byte_of_a_table_changed() {
    let mut rng = Rng::new(0x7ab4);
    for _ in 0..20 {
        let table = encode_table(&tables::typed(&mut rng, 9));
        for place in 0..table.len() {
            for value in [0, 1, 0x3b, 0x3c, 0x7f, 0x80, 0xc4, 0xff, table[place] ^ 1] {
                let mut changed = table.clone();
                changed[place] = value;
                both_agree(&changed);
            }
        }
    }
}

#[test]
fn random_logs_and_damaged_ones() {
    let mut rng = Rng::new(0x7ab5);
    for round in 0..3000 {
        let log = logs::any_log(&mut rng, if round % 60 == 0 { 4000 } else { 60 });
        let bytes = logs::encode_mixed(&mut rng, &log);
        table_agrees(&bytes);
        table_agrees(&damage::damage(&mut rng, &bytes));
        table_agrees(&damage::noise(&mut rng, 40));
    }
}

#[test]
fn logs_with_each_fault() {
    let mut rng = Rng::new(0x7ab6);
    // No log of this length has 9: at most 6,553 opens of 10 bytes fit 65,536.
    for fault in [7, 8, 10, 11] {
        for _ in 0..200 {
            let log = logs::with_fault(&mut rng, fault);
            assert_refused(&table_agrees(&logs::encode_mixed(&mut rng, &log)), fault);
        }
    }
}

#[test]
fn four_records_of_all_kinds() {
    // An open of each length and a close, of three depths, and one that is not readable.
    let of_depth =
        |depth| [encode_short(depth, 5), encode_full(&Open { depth, value: 5, floor: -1, ceiling: 3 }), encode_close(depth)];
    let records = [&(0..3).flat_map(of_depth).collect::<Vec<_>>()[..], &[encode_close(64)]].concat();
    for count in 0..=4 {
        for log in all_of(&records, count) {
            table_agrees(&log);
        }
    }
}

#[test]
fn logs_at_the_longest() {
    let mut log = longest_log();
    table_agrees(&log);
    table_agrees(&log[..65_535]);
    log.push(0);
    table_agrees(&log);
    // Full records alone: 2,730 fit, and 16 bytes more are a short one and its close.
    let full = encode_all(&logs::flat(tables::MOST_LINES));
    table_agrees(&full);
    let one_more = [&full[..65_514], &encode_short(1, 1), &encode_close(1), &encode_close(0)].concat();
    assert_eq!((full.len(), one_more.len()), (65_520, 65_536));
    table_agrees(&one_more);
    log_agrees(&calls::read_table(&one_more, 65_520).expect("2,731 lines"));
}
