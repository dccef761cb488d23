//! The generated logs and pages are of all kinds: pages there and past the end, such as wrap, and
//! lines of many widths.

use reference::gen::pages::{page, paged_log, wraps};
use reference::gen::Rng;
use reference::log::{closer, opened, opens};
use reference::mode::Mode;
use reference::sheet::lines_of;
use std::collections::BTreeSet;

/// Of a page, for a log of so many records: whether it is the first, one in the middle, the last
/// of several, the next, or would be there if 60 times it had 32 bits, or 16, or the page 16 or 8.
fn kinds(page: u32, count: u64) -> [bool; 8] {
    let (first, page) = (60 * u64::from(page), u64::from(page));
    let last = (count - 1) / 60;
    let past = page > last;
    [
        page == 0,
        0 < page && page < last,
        0 < page && page == last,
        page == last + 1,
        past && first % (1 << 32) < count,
        past && first % (1 << 16) < count,
        past && page % (1 << 16) <= last,
        past && page % (1 << 8) <= last,
    ]
}

#[test]
fn pages_are_of_all_kinds() {
    let mut rng = Rng::new(0x921);
    let mut seen = [0; 8];
    for _ in 0..3000 {
        let count = opened(&paged_log(&mut rng));
        let kinds = kinds(page(&mut rng, count as usize), count);
        seen.iter_mut().zip(kinds).for_each(|(seen, found)| *seen += usize::from(found));
    }
    assert!(seen.iter().all(|&count| count > 100), "{seen:?}");
}

#[test]
fn pages_that_wrap_come_round_to_the_first_lines() {
    let rests: BTreeSet<u64> = (1..=59).map(|times| 60 * u64::from(wraps(times)) - (times << 32)).collect();
    // 2^32 is 16 modulo 60, so that the rests are the multiples of 4.
    assert_eq!(rests, (0..15).map(|rest| 4 * rest).collect());
    assert_eq!(wraps(1), 71_582_789);
}

#[test]
fn logs_fill_their_pages_or_nearly() {
    let mut rng = Rng::new(0x922);
    let (mut rests, mut longest) = ([0; 60], 0);
    for _ in 0..2000 {
        let count = opened(&paged_log(&mut rng)) as usize;
        rests[count % 60] += 1;
        longest = longest.max(count);
    }
    assert!([59, 0, 1].iter().all(|&rest| rests[rest] > 200) && rests.iter().all(|&count| count > 0), "{rests:?}");
    assert!(longest > 1000, "{longest}");
}

#[test]
fn figures_are_of_many_widths() {
    let mut rng = Rng::new(0x923);
    // For each mode the widths seen, with a minus and without.
    let mut seen: [[BTreeSet<usize>; 2]; 4] = Default::default();
    for _ in 0..600 {
        let log = paged_log(&mut rng);
        for (mode, seen) in Mode::ALL.into_iter().zip(&mut seen) {
            for line in lines_of(mode, &log) {
                let figure = line[10..26].trim_start();
                seen[usize::from(figure.starts_with('-'))].insert(figure.trim_start_matches('-').len());
            }
        }
    }
    for (mode, widest) in [(0, 12), (1, 11), (2, 10)] {
        for (seen, sign) in seen[mode].iter().zip(["", "-"]) {
            let due: BTreeSet<usize> = (1..=widest).collect();
            assert!(due.is_subset(seen), "{mode}{sign}: {seen:?}");
        }
    }
    assert!(seen[3][0].len() == 10 && seen[3][1].is_empty(), "{:?}", seen[3]);
}

#[test]
fn records_are_closed_on_later_pages() {
    let mut rng = Rng::new(0x924);
    // Records on the first page that hold one on the second, and on the third.
    let mut seen = [0; 2];
    for _ in 0..300 {
        let log = paged_log(&mut rng);
        let places = opens(&log);
        for &place in places.iter().take(60).skip(1) {
            let end = closer(&log, place).expect("a record that is closed");
            let held = places.iter().filter(|&&other| place < other && other < end).count();
            let last = places.binary_search(&place).expect("an open record") + held;
            seen[0] += usize::from(last >= 60);
            seen[1] += usize::from(last >= 120);
        }
    }
    assert!(seen.iter().all(|&count| count > 200), "{seen:?}");
}
