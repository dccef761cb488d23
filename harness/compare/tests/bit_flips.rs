//! What one flipped bit does to a log. The format has no check sum: a flip is refused, or it gives other figures, or the same ones.
//! docs/HOW-WE-KNOW.md states the numbers.

use compare::calls;
use std::collections::BTreeMap;
use std::path::Path;

/// A file of the repository.
fn read(path: &str) -> Vec<u8> {
    std::fs::read(Path::new(env!("CARGO_MANIFEST_DIR")).join("../..").join(path)).expect(path)
}

/// What the library and the reference say of a log.
fn day(log: &[u8]) -> Result<[i64; 4], u8> {
    let answer = calls::day(log);
    assert_eq!(answer, reference::calls::day(log));
    answer
}

/// How many flips of a bit are refused, by number, and how many give other figures and the same.
fn flips(log: &[u8]) -> (BTreeMap<u8, usize>, usize, usize) {
    let figures = day(log).expect("a log with figures");
    let (mut refused, mut other, mut same) = (BTreeMap::new(), 0, 0);
    let mut flipped = log.to_vec();
    for bit in 0..8 * log.len() {
        flipped[bit / 8] ^= 1 << (bit % 8);
        match day(&flipped) {
            Err(number) => *refused.entry(number).or_insert(0) += 1,
            Ok(now) if now != figures => other += 1,
            Ok(_) => same += 1,
        }
        flipped[bit / 8] ^= 1 << (bit % 8);
    }
    (refused, other, same)
}

#[test]
fn every_flip_of_the_weekday() {
    // The log has 53 full opens, 119 short ones and 172 closes. By hand: of a record's length, kind and depth no bit may change.
    // 6 bits lead to another depth, which does not meet its neighbours; the other 42 to what is not readable. One of these makes 22
    // out of a length of 18: the next record's first four bytes are then a batch, and its depth, 1 to 4, is no length.
    let records = 53 + 119 + 172;
    // A value is far from its limits: bits 30 and 31 lead out of them, and each of the other 30 changes net.
    let values = 53 + 119;
    // A floor of 0 becomes 2^k, which may not be above the ceiling: 4,000 of 36 meals, 9,000 of 12 tanks, 40,000 of 4 raceways and
    // 10^9 of the site, so that 12, 14, 16 and 30 bits may change.
    let floors = 36 * (32 - 12) + 12 * (32 - 14) + 4 * (32 - 16) + (32 - 30);
    // A ceiling has two bits that lead out of the limits; that of the site, 10^9 itself, only gets lower by one of its 13 ones.
    let ceilings = 52 * 2 + (32 - 13);
    let unreadable = records * 42 + values * 2 + floors + ceilings;
    let weekday = read("samples/weekday.log");
    let (refused, other, same) = flips(&weekday);
    assert_eq!(refused, BTreeMap::from([(3, unreadable), (7, records * 6)]));
    assert_eq!((unreadable, records * 6, other, same), (15_917, 2_064, 5_388, 2_039));
    assert_eq!(15_917 + 2_064 + 5_388 + 2_039, 8 * weekday.len());
    // A flip of a value changes net; a flip of a floor or a ceiling only where it is what counts.
    assert!(other > values * 30, "{other}");
    // The page has these numbers.
    let page = String::from_utf8(read("docs/HOW-WE-KNOW.md")).expect("text");
    for number in ["25,408", "17,981", "5,388", "2,039"] {
        assert!(page.contains(number), "{number}");
    }
}
