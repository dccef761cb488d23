//! Day tables: taken ones of any shape, ones that are refused, and damaged ones.

use super::damage::damage;
use super::logs::{any_log, grams, open, Values, VALUES};
use super::Rng;
use crate::record::{Open, DEEPEST, GRAMS};
use crate::table::{encode_table, table_of, LINE, LONGEST_TABLE};

/// The most lines of a table.
pub const MOST_LINES: usize = LONGEST_TABLE / LINE;

/// A table that a log can have: typed at random, with so many lines, 1 or more, or read
/// out of a random log of about as many records at the most.
pub fn any_table(rng: &mut Rng, lines: usize) -> Vec<Open> {
    if rng.one_in(3) {
        table_of(&any_log(rng, lines))
    } else {
        typed(rng, lines)
    }
}

/// A table that a log can have, of exactly so many lines, 1 or more. Each line goes one
/// deeper, down to a depth drawn at random, or falls back to any depth above 0.
pub fn typed(rng: &mut Rng, lines: usize) -> Vec<Open> {
    let values = rng.pick(&VALUES);
    let deepest = rng.pick(&[1, 2, 5, DEEPEST]);
    let a_fall_in = rng.pick(&[1, 2, 9, 80]);
    let mut table = vec![open(rng, 0, values)];
    while table.len() < lines {
        let below = table[table.len() - 1].depth + 1;
        let depth = if rng.one_in(a_fall_in) { 1 + rng.below(below) } else { below };
        table.push(open(rng, depth.min(deepest), values));
    }
    table
}

/// The bytes of a table whose refusal is the given one, whatever buffer is lent: 2, 3, 10
/// or 13.
pub fn with_refusal(rng: &mut Rng, refusal: u8) -> Vec<u8> {
    let lines = 2 + rng.below(20);
    let mut table = typed(rng, lines);
    let place = rng.below(table.len());
    match refusal {
        // Longer than any table, whether of whole lines or not.
        2 => {
            let more = 1 + rng.below(3 * LINE);
            vec![0; LONGEST_TABLE + more]
        }
        3 if rng.one_in(3) => {
            let mut bytes = encode_table(&table);
            bytes.truncate(place * LINE + 1 + rng.below(LINE - 1));
            bytes
        }
        3 => {
            out_of_range(rng, &mut table[place]);
            encode_table(&table)
        }
        10 => Vec::new(),
        13 => {
            misplace(rng, &mut table, place);
            encode_table(&table)
        }
        _ => panic!("no table with refusal {refusal}"),
    }
}

/// One field of a line made such that no readable record has it.
fn out_of_range(rng: &mut Rng, line: &mut Open) {
    let any = rng.between(GRAMS + 1, i32::MAX.into());
    let past = rng.pick(&[GRAMS + 1, any, i32::MAX.into(), -GRAMS - 1, -any, i32::MIN.into()]);
    match rng.below(5) {
        0 => line.depth = rng.pick(&[DEEPEST + 1, 256, 65_535]),
        1 => line.value = past,
        2 => line.floor = past,
        3 => line.ceiling = past,
        // A floor above its ceiling.
        _ => (line.floor, line.ceiling) = (grams(rng, Values::Small) + 41, grams(rng, Values::Small)),
    }
}

/// The depth of a line made such that no log has it there: the first is not 0, a later
/// one is 0, or more than one above the line before.
fn misplace(rng: &mut Rng, table: &mut [Open], place: usize) {
    let least = if place == 0 { 1 } else { table[place - 1].depth + 2 };
    let any = rng.below(DEEPEST + 1).max(least);
    let leap = rng.pick(&[least, any]);
    table[place].depth = if leap <= DEEPEST && (place == 0 || rng.one_in(2)) { leap } else { 0 };
}

/// The bytes of a table with something wrong in it, or perhaps not.
pub fn damaged(rng: &mut Rng, table: &[Open]) -> Vec<u8> {
    let mut lines = table.to_vec();
    let place = rng.below(lines.len());
    match rng.below(6) {
        0 => out_of_range(rng, &mut lines[place]),
        1 => misplace(rng, &mut lines, place),
        // Two things wrong in two lines.
        2 => {
            misplace(rng, &mut lines, place);
            let other = rng.below(lines.len());
            out_of_range(rng, &mut lines[other]);
        }
        // A line left out.
        3 => {
            lines.remove(place);
        }
        // A line twice.
        4 => lines.insert(place, table[place]),
        _ => return damage(rng, &encode_table(table)),
    }
    encode_table(&lines)
}
