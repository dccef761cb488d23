//! L11, "Eight farms on one station", sentence by sentence; summaries, states and numbers are
//! written out by hand. `crate::calls` are the reference's here and the library's in `compare`,
//! which has this file too.

use crate::calls::{farms_end_of_day, farms_fresh, farms_send, finish, merge, summarise};
use reference::farms::FARMS_STATE;
use reference::gen::raw::{blank, close, in_mode, log_d, nothing, short, spoilt, words, Hill, MODES};

pub type State = [u8; FARMS_STATE];

/// The bytes of a slot, and of the longest summary.
pub const SLOT: usize = 1_788;

/// A fresh state in a mode, over bytes that none has.
pub fn fresh(mode: u16) -> State {
    let mut state = [0xa5; FARMS_STATE];
    assert_eq!(farms_fresh(mode.into(), &mut state), Ok(()));
    state
}

/// A slot with a summary at its start, and zeros after it.
pub fn slot(summary: &[u8]) -> Vec<u8> {
    let mut slot = summary.to_vec();
    slot.resize(SLOT, 0);
    slot
}

/// The state whose slots begin with these bytes and have zeros after them.
fn state_of(summaries: [Vec<u8>; 8]) -> State {
    let slots = summaries.map(|summary| slot(&summary)).concat();
    slots.try_into().expect("14,304 bytes")
}

/// A state with a blank in each slot but for these, which begin so.
fn state_with(mode: u16, others: &[(usize, Vec<u8>)]) -> State {
    let mut summaries = [(); 8].map(|()| blank(mode));
    for (farm, bytes) in others {
        summaries[*farm] = bytes.clone();
    }
    state_of(summaries)
}

/// A summary with so many opened records, 1 to 100,000. It starts and ends at level 1 and holds
/// nothing, so that two of them merged are one with as many as both.
pub fn records(mode: u16, opened: u32) -> Vec<u8> {
    Hill::empty(mode, 1, 1, 1, opened).bytes()
}

/// The state in which each farm has sent so many opened records as of [`records`].
fn state_of_records(mode: u16, opened: [u32; 8]) -> State {
    state_of(opened.map(|opened| if opened == 0 { blank(mode) } else { records(mode, opened) }))
}

/// A send is refused, and every byte of the state stays.
fn assert_refused(state: &mut State, farm: u32, summary: &[u8], number: u8) {
    let before = *state;
    let length = summary.len();
    assert_eq!(farms_send(state, farm, summary), Err(number), "farm {farm}, {length} bytes");
    assert!(*state == before, "farm {farm}, {length} bytes: the state moved at {number}");
}

/// An end of day is refused, and every byte of the state stays.
fn assert_not_ended(state: &mut State, farm: u32, capacity: usize, number: u8) {
    let before = *state;
    assert_eq!(farms_end_of_day(state, farm, capacity), Err(number), "farm {farm}, {capacity} bytes");
    assert!(*state == before, "farm {farm}, {capacity} bytes: the state moved at {number}");
}

const TAKEN: Result<(), u8> = Ok(());
const FULL: Result<(), u8> = Err(21);

/// Sends as of [`records`], one after another: the farm, how many it sends, and what it is told.
/// What is refused leaves every byte, and what is taken adds to the farm's own slot alone.
fn assert_told(state: &mut State, mode: u16, sends: &[(u32, u32, Result<(), u8>)]) {
    let opened = |slot: &[u8]| if slot[0] == 6 { 0 } else { u32::from_le_bytes(slot[12..16].try_into().expect("4 bytes")) };
    for (farm, count, told) in sends {
        let mut due: Vec<u32> = state.chunks(SLOT).map(opened).collect();
        due[*farm as usize] += if told.is_ok() { *count } else { 0 };
        assert_eq!(farms_send(state, *farm, &records(mode, *count)), *told, "farm {farm} and {count} records");
        assert!(*state == state_of_records(mode, due.try_into().expect("eight farms")), "farm {farm} and {count} records");
    }
}

/// An end of day with a buffer that is long enough for any summary.
fn handed_out(state: &mut State, farm: u32) -> Vec<u8> {
    farms_end_of_day(state, farm, SLOT).expect("a farm that has a summary")
}

/// The modes but one.
fn other_modes(mode: u16) -> Vec<u16> {
    MODES.into_iter().filter(|&other| other != mode).collect()
}

/// Farms that are not there. In their low 3, 8, 16 or 31 bits many are.
const ABOVE_7: [u32; 14] = [8, 9, 10, 15, 16, 255, 256, 263, 65_535, 65_536, 65_543, 1 << 31, (1 << 31) + 7, u32::MAX];

// A fresh state.

#[test]
fn a_state_has_a_slot_of_1788_bytes_for_each_farm() {
    // Farm f has f + 1 records, from byte 1,788 × f on: that is what its end of day hands out, and what it leaves is blank.
    for mode in MODES {
        let mut bytes = vec![0; 14_304];
        for (farm, count) in (0..8).zip(1..) {
            bytes[1_788 * farm..1_788 * farm + 24].copy_from_slice(&records(mode, count));
        }
        let mut state: State = bytes.clone().try_into().expect("8 × 1,788 bytes");
        for (farm, count) in (0..8).zip(1..) {
            assert_eq!(handed_out(&mut state, farm as u32), records(mode, count));
            bytes[1_788 * farm..1_788 * (farm + 1)].copy_from_slice(&slot(&blank(mode)));
            assert!(state[..] == bytes[..], "farm {farm}");
        }
    }
}

#[test]
fn each_running_summary_is_blank_at_first() {
    for mode in MODES {
        let due = [words(&[6, 16, mode]), vec![0; 1_782]].concat().repeat(8);
        // Over zeros, over ones, over a state of another mode, and over one that is in use.
        let in_use = state_of_records(mode, [30_000, 1, 2, 3, 10_000, 0, 0, 1]);
        for mut state in [[0; FARMS_STATE], [0xff; FARMS_STATE], fresh(other_modes(mode)[0]), in_use] {
            assert_eq!(farms_fresh(mode.into(), &mut state), Ok(()));
            assert!(state[..] == due[..], "mode {mode}");
        }
        for farm in 0..8 {
            assert_eq!(handed_out(&mut fresh(mode), farm), blank(mode));
        }
    }
}

#[test]
fn a_mode_that_is_not_in_use_gets_1_and_every_byte_stays() {
    let modes = [0, 3, 6, 7, 8, 16, 255, 256, 257, 261, 65_535, 65_536, 65_537, 65_538, 65_540, 65_541];
    for mode in modes.into_iter().chain([1 << 31, (1 << 31) + 1, u32::MAX - 3, u32::MAX]) {
        for old in [[0; FARMS_STATE], [0xff; FARMS_STATE], fresh(5), state_of_records(1, [1, 2, 3, 4, 5, 6, 7, 8])] {
            let mut state = old;
            assert_eq!(farms_fresh(mode, &mut state), Err(1), "mode {mode}");
            assert!(state == old, "mode {mode}");
        }
    }
}

// Sending, and what an end of day hands out.

#[test]
fn log_d_sent_in_parts() {
    // Its four figures, in a hill that starts and ends at level 0.
    let log = log_d();
    for mode in MODES {
        let figure = in_mode(mode, [12, 15, 12, 72]);
        let whole = Hill { middle: figure, ..Hill::empty(mode, 0, 0, 0, 3) }.bytes();
        for (first, second) in (0..=6).flat_map(|first| (first..=6).map(move |second| (first, second))) {
            let mut state = fresh(mode);
            for part in [&log[..first], &log[first..second], &log[second..]] {
                let summary = summarise(&part.concat(), mode.into(), SLOT).expect("readable");
                assert_eq!(farms_send(&mut state, 2, &summary), Ok(()));
            }
            assert!(state == state_with(mode, &[(2, whole.clone())]));
            let summary = handed_out(&mut state, 2);
            assert_eq!((&summary, finish(&summary)), (&whole, Ok(figure)));
        }
    }
}

#[test]
fn a_summary_is_merged_at_the_right_end() {
    for mode in MODES {
        // "open 0", then "close 0"; the other way round the level between them is 0.
        let (open, close) = (Hill::empty(mode, 0, 0, 1, 1).bytes(), Hill::empty(mode, 1, 0, 0, 0).bytes());
        let closed = Hill { middle: 0, ..Hill::empty(mode, 0, 0, 0, 1) }.bytes();
        // "close 1, open 1", with 7 grams or 9: what is sent last stays open.
        let again = |grams| Hill { right: vec![(grams, 0, 100, nothing(mode))], ..Hill::empty(mode, 2, 1, 2, 1) };
        let both = |middle, last| Hill { middle, opened: 2, ..again(last) }.bytes();
        let [seven, nine] = [7, 9].map(|grams| again(grams).bytes());
        for (first, second, due) in [
            (&open, &close, closed),
            (&close, &open, spoilt(mode, 8, 1, 1, 1)),
            (&seven, &nine, both(7, 9)),
            (&nine, &seven, both(9, 7)),
        ] {
            let mut state = fresh(mode);
            assert_eq!([farms_send(&mut state, 6, first), farms_send(&mut state, 6, second)], [TAKEN; 2]);
            assert_eq!(merge(first, second, SLOT), Ok(due.clone()));
            assert_eq!(handed_out(&mut state, 6), due);
        }
    }
}

#[test]
fn each_farm_has_a_running_summary_of_its_own() {
    for mode in MODES {
        let mut state = fresh(mode);
        // Farm f sends f + 1 records, twice over; in the order 3, 6, 1, 4, 7, 2, 5, 0.
        let order = [3, 6, 1, 4, 7, 2, 5, 0];
        for farm in order.into_iter().chain(order) {
            assert_eq!(farms_send(&mut state, farm, &records(mode, farm + 1)), Ok(()));
        }
        assert!(state == state_of_records(mode, [2, 4, 6, 8, 10, 12, 14, 16]));
        // Each hands out its own, and the others keep theirs.
        let mut left = [2, 4, 6, 8, 10, 12, 14, 16];
        for farm in order {
            assert_eq!(handed_out(&mut state, farm), records(mode, 2 * farm + 2));
            left[farm as usize] = 0;
            assert!(state == state_of_records(mode, left), "farm {farm}");
        }
        assert!(state == fresh(mode));
    }
}

#[test]
fn blanks_add_nothing() {
    for mode in MODES {
        // Farm 0 draws all that is in common, farm 1 has all of its own.
        for opened in [[0; 8], [1; 8], [30_000, 10_000, 0, 0, 0, 0, 0, 0]] {
            let before = state_of_records(mode, opened);
            for farm in 0..8 {
                let mut state = before;
                assert_eq!(farms_send(&mut state, farm, &blank(mode)), Ok(()), "farm {farm}");
                assert!(state == before, "farm {farm}");
            }
        }
    }
}

#[test]
fn the_longest_summary_fills_its_slot_and_a_shorter_one_leaves_zeros() {
    for mode in MODES {
        // From level 64 down to 1 and up to 64 again: 24 + 8 × 63 + 20 × 63 bytes.
        let longest = Hill::empty(mode, 64, 1, 64, 63).bytes();
        assert_eq!(longest.len(), 1_788);
        for farm in 0..8 {
            let mut state = fresh(mode);
            assert_eq!(farms_send(&mut state, farm, &longest), Ok(()));
            assert!(state == state_with(mode, &[(farm as usize, longest.clone())]));
            assert_not_ended(&mut state, farm, 1_787, 12);
            let mut other = state;
            assert_eq!(handed_out(&mut other, farm), longest);
            assert!(other == fresh(mode));
            // All 63 are closed. Each has 0 grams, and so has the first, at level 1.
            assert_eq!(farms_send(&mut state, farm, &Hill::empty(mode, 64, 1, 1, 0).bytes()), Ok(()));
            let closed = Hill { middle: 0, ..Hill::empty(mode, 64, 1, 1, 63) }.bytes();
            assert_eq!(closed.len(), 528);
            assert!(state == state_with(mode, &[(farm as usize, closed)]));
            // Then it is spoilt: 16 bytes.
            assert_eq!(farms_send(&mut state, farm, &Hill::empty(mode, 2, 2, 3, 1).bytes()), Ok(()));
            assert!(state == state_with(mode, &[(farm as usize, spoilt(mode, 7, 64, 3, 64))]));
        }
    }
}

// The end of day.

#[test]
fn an_end_of_day_makes_the_summary_blank() {
    for mode in MODES {
        let mut state = state_of_records(mode, [1, 2, 3, 4, 5, 6, 7, 8]);
        assert_eq!(farms_end_of_day(&mut state, 4, 24), Ok(records(mode, 5)));
        assert!(state == state_of_records(mode, [1, 2, 3, 4, 0, 6, 7, 8]));
        // A second one hands out the blank.
        assert_eq!(farms_end_of_day(&mut state, 4, 6), Ok(words(&[6, 16, mode])));
        assert!(state == state_of_records(mode, [1, 2, 3, 4, 0, 6, 7, 8]));
        // What is sent then is all that there is.
        assert_eq!(farms_send(&mut state, 4, &records(mode, 9)), Ok(()));
        assert_eq!(farms_end_of_day(&mut state, 4, 10_000), Ok(records(mode, 9)));
    }
}

#[test]
fn a_12_leaves_the_farm_as_it_is() {
    for mode in MODES {
        // A blank, a spoilt summary, and hills of 24, 44 and 1,788 bytes.
        let hills = [(1, 1, 1), (0, 0, 1), (64, 1, 64)].map(|(start, peak, end)| Hill::empty(mode, start, peak, end, 63).bytes());
        for summary in hills.into_iter().chain([blank(mode), spoilt(mode, 7, 3, 64, 30_000)]) {
            for farm in 0..8 {
                let before = state_with(mode, &[(farm as usize, summary.clone())]);
                let exact = summary.len();
                let mut state = before;
                for short in [0, 1, 5, exact / 2, exact - 1] {
                    assert_not_ended(&mut state, farm, short, 12);
                }
                // Then again with just enough, or with more.
                for enough in [exact, exact + 1, 1_788.max(exact), 70_000] {
                    let mut state = before;
                    assert_eq!(farms_end_of_day(&mut state, farm, enough), Ok(summary.clone()));
                    assert!(state == fresh(mode));
                }
            }
        }
    }
}

#[test]
fn after_a_12_sends_go_on_where_the_farm_was() {
    let mut state = fresh(1);
    assert_told(&mut state, 1, &[(0, 25_000, TAKEN), (1, 15_000, TAKEN), (1, 1, FULL)]);
    assert_not_ended(&mut state, 0, 23, 12);
    // What it drew is not free.
    assert_told(&mut state, 1, &[(1, 1, FULL), (0, 1, FULL), (2, 10_001, FULL), (2, 10_000, TAKEN)]);
    assert_eq!(farms_end_of_day(&mut state, 0, 24), Ok(records(1, 25_000)));
    assert_told(&mut state, 1, &[(1, 15_000, TAKEN), (0, 10_000, TAKEN), (0, 1, FULL), (2, 1, FULL)]);
}

// "20 first, for a farm above 7".

#[test]
fn a_farm_above_7_gets_20_whatever_else_there_is() {
    let noise = [0xff; FARMS_STATE];
    for farm in ABOVE_7 {
        for mut state in [fresh(1), state_of_records(1, [30_000; 8]), [0; FARMS_STATE], noise] {
            // One that would be taken; no summary (5); another mode (6); too many (21).
            for summary in [records(1, 1), blank(1), vec![], vec![0; 70_000], records(2, 1), records(1, 100_000)] {
                assert_refused(&mut state, farm, &summary, 20);
            }
            // A buffer that is too short (12), and such as are long enough.
            for capacity in [0, 5, 6, 24, 1_788, 70_000] {
                assert_not_ended(&mut state, farm, capacity, 20);
            }
        }
    }
}

#[test]
fn farms_0_to_7_are_there() {
    for mode in MODES {
        let mut state = fresh(mode);
        for farm in 0..=7 {
            assert_eq!(farms_send(&mut state, farm, &records(mode, 1 + farm)), Ok(()));
        }
        for farm in (0..=7).rev() {
            assert_eq!(farms_end_of_day(&mut state, farm, 24), Ok(records(mode, 1 + farm)));
        }
        assert!(state == fresh(mode));
    }
}

// 5 and 6, of what the farm has and what is sent.

/// Bytes that are not exactly one summary of a mode.
fn no_summaries(mode: u16) -> Vec<Vec<u8>> {
    let with = |at: usize, value: u8, mut bytes: Vec<u8>| {
        bytes[at] = value;
        bytes
    };
    vec![
        vec![],
        vec![6],
        vec![6, 0],
        vec![0; 70_000],
        vec![0xff; 70_000],
        blank(mode)[..5].to_vec(),
        [blank(mode), vec![0]].concat(),
        [blank(mode), blank(mode)].concat(),
        // As long as its length field says in 16 bits.
        [blank(mode), vec![0; 65_536]].concat(),
        [records(mode, 1), vec![0; 65_536]].concat(),
        slot(&records(mode, 1)),
        with(0, 7, blank(mode)),
        // Other kinds and modes.
        with(2, 15, blank(mode)),
        with(2, 19, records(mode, 1)),
        with(4, 3, blank(mode)),
        with(4, 0, records(mode, 1)),
        with(5, 1, records(mode, 1)),
        // Opened: none in a flat hill, or more than 100,000; fault 9 with fewer than 100,001.
        records(mode, 0),
        records(mode, 100_001),
        records(mode, u32::MAX),
        spoilt(mode, 9, 1, 1, 100_000),
        spoilt(mode, 7, 1, 1, 100_002),
        // A level of 65; a peak above the end.
        spoilt(mode, 7, 65, 1, 1),
        Hill::empty(mode, 65, 65, 65, 1).bytes(),
        Hill::empty(mode, 2, 2, 1, 1).bytes(),
    ]
}

#[test]
fn what_is_no_summary_gets_5() {
    for mode in MODES {
        for bytes in no_summaries(mode) {
            for opened in [[0; 8], [1; 8], [30_000, 10_000, 10_000, 0, 0, 0, 0, 0]] {
                for farm in 0..8 {
                    assert_refused(&mut state_of_records(mode, opened), farm, &bytes, 5);
                }
            }
        }
    }
}

#[test]
fn a_summary_of_another_mode_gets_6() {
    for mode in MODES {
        for other in other_modes(mode) {
            for opened in [[0; 8], [1; 8]] {
                // A blank has a mode too.
                let hill = Hill::empty(other, 3, 1, 2, 9).bytes();
                for summary in [blank(other), records(other, 1), spoilt(other, 7, 1, 1, 0), hill] {
                    for farm in 0..8 {
                        assert_refused(&mut state_of_records(mode, opened), farm, &summary, 6);
                    }
                }
            }
        }
        // After an end of day the mode is still that of the run.
        let mut state = state_of_records(mode, [7; 8]);
        assert_eq!(handed_out(&mut state, 3), records(mode, 7));
        for other in other_modes(mode) {
            assert_refused(&mut state, 3, &records(other, 1), 6);
        }
        assert_eq!(farms_send(&mut state, 3, &records(mode, 1)), Ok(()));
    }
}

#[test]
fn five_before_six_and_both_before_21() {
    for mode in MODES {
        let full = state_of_records(mode, [30_000, 10_000, 10_000, 10_000, 10_000, 10_000, 10_000, 10_000]);
        for farm in 0..8 {
            let mut state = full;
            for other in other_modes(mode) {
                for bytes in no_summaries(other) {
                    assert_refused(&mut state, farm, &bytes, 5);
                }
                // Of another mode, and too many.
                for summary in [records(other, 1), records(other, 100_000), spoilt(other, 9, 1, 1, 100_001)] {
                    assert_refused(&mut state, farm, &summary, 6);
                }
            }
            // No summary, with opened records that would be too many.
            for bytes in [records(mode, 100_001), [records(mode, 100_000), vec![0]].concat(), spoilt(mode, 9, 1, 1, 99_999)] {
                assert_refused(&mut state, farm, &bytes, 5);
            }
            assert_refused(&mut state, farm, &records(mode, 1), 21);
        }
    }
}

// "Up to 10,000 opened records a farm are its own; above that it draws on 20,000 that all have in
// common."

#[test]
fn ten_thousand_are_a_farms_own_whatever_the_others_draw() {
    for mode in MODES {
        for rich in 0..8 {
            let mut state = fresh(mode);
            assert_told(&mut state, mode, &[(rich, 30_000, TAKEN)]);
            for farm in (0..8).filter(|&farm| farm != rich) {
                // All at once, and with one too many at first.
                assert_told(&mut state, mode, &[(farm, 10_001, FULL), (farm, 10_000, TAKEN), (farm, 1, FULL)]);
            }
            assert_told(&mut state, mode, &[(rich, 1, FULL)]);
        }
    }
}

#[test]
fn ten_thousand_one_by_one() {
    let parts = [(1, 9_998, TAKEN), (1, 3, FULL), (1, 1, TAKEN), (1, 2, FULL), (1, 1, TAKEN), (1, 1, FULL), (1, 100_000, FULL)];
    for mode in MODES {
        let mut state = fresh(mode);
        assert_told(&mut state, mode, &[(0, 30_000, TAKEN)]);
        assert_told(&mut state, mode, &parts);
        assert!(state == state_of_records(mode, [30_000, 10_000, 0, 0, 0, 0, 0, 0]));
    }
}

#[test]
fn one_farm_may_draw_all_that_is_in_common() {
    for mode in MODES {
        for farm in 0..8 {
            let mut state = fresh(mode);
            assert_told(&mut state, mode, &[(farm, 100_000, FULL), (farm, 30_001, FULL), (farm, 30_000, TAKEN), (farm, 1, FULL)]);
            let mut state = fresh(mode);
            assert_told(&mut state, mode, &[(farm, 10_000, TAKEN), (farm, 20_001, FULL), (farm, 20_000, TAKEN), (farm, 1, FULL)]);
            let mut state = fresh(mode);
            assert_told(&mut state, mode, &[(farm, 10_001, TAKEN), (farm, 19_999, TAKEN), (farm, 1, FULL)]);
            let mut state = fresh(mode);
            assert_told(&mut state, mode, &[(farm, 29_999, TAKEN), (farm, 2, FULL), (farm, 1, TAKEN), (farm, 1, FULL)]);
        }
    }
}

#[test]
fn two_farms_draw_on_the_same_20000() {
    for mode in MODES {
        let mut state = fresh(mode);
        assert_told(&mut state, mode, &[(0, 20_000, TAKEN), (7, 20_001, FULL), (7, 20_000, TAKEN), (0, 1, FULL), (7, 1, FULL)]);
        let mut state = fresh(mode);
        assert_told(&mut state, mode, &[(2, 10_001, TAKEN), (3, 30_000, FULL), (3, 29_999, TAKEN), (2, 1, FULL)]);
        // The last one of the 20,000.
        let mut state = fresh(mode);
        assert_told(&mut state, mode, &[(5, 29_999, TAKEN), (4, 10_000, TAKEN), (4, 1, TAKEN), (4, 1, FULL), (5, 1, FULL)]);
    }
}

#[test]
fn eight_farms_draw_on_the_same_20000() {
    for mode in MODES {
        // 2,500 each above their own.
        let mut state = fresh(mode);
        for farm in 0..7 {
            assert_told(&mut state, mode, &[(farm, 12_500, TAKEN)]);
        }
        assert_told(&mut state, mode, &[(7, 12_501, FULL), (7, 12_500, TAKEN)]);
        for farm in 0..8 {
            assert_told(&mut state, mode, &[(farm, 1, FULL)]);
        }
        // All have their own, then one draws, and again.
        let mut state = state_of_records(mode, [10_000; 8]);
        assert_told(&mut state, mode, &[(0, 20_001, FULL), (6, 20_000, TAKEN), (0, 1, FULL), (6, 1, FULL)]);
        let mut state = state_of_records(mode, [10_000; 8]);
        for farm in 0..8 {
            assert_told(&mut state, mode, &[(farm, 2_499, TAKEN)]);
        }
        // 8 are left.
        assert_told(&mut state, mode, &[(1, 9, FULL), (1, 7, TAKEN), (5, 2, FULL), (5, 1, TAKEN), (2, 1, FULL)]);
    }
}

#[test]
fn what_a_farm_leaves_of_its_own_is_not_lent() {
    for mode in MODES {
        // The others have none at all, and a farm still has 30,000 at the most.
        let mut state = state_of_records(mode, [0, 0, 0, 29_999, 0, 0, 0, 0]);
        assert_told(&mut state, mode, &[(3, 2, FULL), (3, 1, TAKEN), (3, 1, FULL)]);
        // One below 10,000 neither draws nor gives.
        let mut state = state_of_records(mode, [30_000, 9_000, 9_000, 9_000, 9_000, 9_000, 9_000, 9_000]);
        assert_told(&mut state, mode, &[(0, 1, FULL), (1, 1_001, FULL), (1, 1_000, TAKEN), (1, 1, FULL), (2, 1_000, TAKEN)]);
    }
}

#[test]
fn what_a_farm_drew_is_free_again_after_its_end_of_day() {
    for mode in MODES {
        let mut state = fresh(mode);
        assert_told(&mut state, mode, &[(3, 30_000, TAKEN), (5, 10_001, FULL), (5, 30_000, FULL)]);
        assert_eq!(farms_end_of_day(&mut state, 3, 24), Ok(records(mode, 30_000)));
        assert_told(&mut state, mode, &[(5, 10_001, TAKEN), (5, 19_999, TAKEN), (5, 1, FULL)]);
        assert_told(&mut state, mode, &[(3, 10_001, FULL), (3, 10_000, TAKEN), (3, 1, FULL)]);
        assert_eq!(farms_end_of_day(&mut state, 5, 24), Ok(records(mode, 30_000)));
        assert_told(&mut state, mode, &[(3, 20_000, TAKEN), (5, 10_001, FULL)]);
        // The end of day of one that drew nothing frees nothing.
        assert_told(&mut state, mode, &[(5, 10_000, TAKEN)]);
        assert_eq!(farms_end_of_day(&mut state, 5, 24), Ok(records(mode, 10_000)));
        assert_told(&mut state, mode, &[(6, 10_001, FULL), (5, 10_001, FULL), (3, 1, FULL)]);
    }
}

#[test]
fn a_farm_may_have_its_own_and_all_in_common_every_day() {
    for mode in MODES {
        let mut state = fresh(mode);
        for day in 0..5 {
            assert_told(&mut state, mode, &[(day, 30_000, TAKEN), (day, 1, FULL), (7, 10_001, FULL)]);
            assert_eq!(farms_end_of_day(&mut state, day, 24), Ok(records(mode, 30_000)));
            assert!(state == fresh(mode));
        }
    }
}

// "that farm is told the same in both until a send of its own gets 21 in just one of them"

#[test]
fn what_the_others_do_is_told_by_21_alone() {
    for mode in MODES {
        // Alone; with a farm that has 25,000; with one that has 25,001 and its end of day later on.
        let [mut alone, mut with_one, mut with_another] = [(); 3].map(|()| fresh(mode));
        assert_told(&mut with_one, mode, &[(0, 25_000, TAKEN)]);
        assert_told(&mut with_another, mode, &[(0, 25_001, TAKEN)]);
        for state in [&mut alone, &mut with_one, &mut with_another] {
            assert_told(state, mode, &[(3, 10_000, TAKEN), (3, 4_999, TAKEN)]);
            assert_refused(state, 3, &blank(other_modes(mode)[0]), 6);
            assert_refused(state, 3, &[], 5);
            assert_not_ended(state, 3, 23, 12);
        }
        assert_told(&mut alone, mode, &[(3, 1, TAKEN)]);
        assert_told(&mut with_one, mode, &[(3, 1, TAKEN)]);
        assert_told(&mut with_another, mode, &[(3, 1, FULL)]);
        // From there on what is handed out may differ, and so may what is told next.
        let days = [&mut alone, &mut with_one, &mut with_another].map(|state| handed_out(state, 3));
        assert_eq!(days, [15_000, 15_000, 14_999].map(|opened| records(mode, opened)));
        assert_eq!(handed_out(&mut with_another, 0), records(mode, 25_001));
        assert_told(&mut alone, mode, &[(3, 15_001, TAKEN)]);
        assert_told(&mut with_one, mode, &[(3, 15_001, FULL)]);
        assert_told(&mut with_another, mode, &[(3, 15_001, TAKEN)]);
    }
}

#[test]
fn within_its_own_a_farm_is_told_the_same_whatever_the_others_do() {
    for mode in MODES {
        let own = [(3, 9_000, TAKEN), (3, 999, TAKEN), (3, 1, TAKEN)];
        let between = [[(0, 30_000, TAKEN), (1, 10_001, FULL)], [(1, 10_000, TAKEN), (0, 1, FULL)], [(1, 1, FULL), (2, 1, TAKEN)]];
        let [mut alone, mut among_others] = [(); 2].map(|()| fresh(mode));
        for (own, between) in own.into_iter().zip(between) {
            assert_told(&mut alone, mode, &[own]);
            assert_told(&mut among_others, mode, &between);
            assert_told(&mut among_others, mode, &[own]);
        }
        assert_eq!(handed_out(&mut among_others, 0), records(mode, 30_000));
        for state in [&mut alone, &mut among_others] {
            assert_not_ended(state, 3, 23, 12);
            assert_eq!(farms_end_of_day(state, 3, 24), Ok(records(mode, 10_000)));
            assert_eq!(farms_end_of_day(state, 3, 24), Ok(blank(mode)));
        }
    }
}

#[test]
fn chunks_of_4096_records_draw_from_the_third_on() {
    // 65,536 bytes, from level 1 to level 1.
    let chunk = [short(1, 1), close(1)].concat().repeat(4_096);
    for mode in MODES {
        let summary = summarise(&chunk, mode.into(), SLOT).expect("readable");
        // In mode 2 the greatest, in the others the sum.
        let chunks = |count: u32| {
            let grams = 4_096 * i64::from(count);
            Hill { middle: in_mode(mode, [grams, 1, grams, grams]), ..Hill::empty(mode, 1, 1, 1, 4_096 * count) }.bytes()
        };
        let mut state = fresh(mode);
        for count in 1..=7 {
            assert_eq!(farms_send(&mut state, 0, &summary), Ok(()));
            assert!(state == state_with(mode, &[(0, chunks(count))]));
        }
        // 28,672 and not 32,768; of the 20,000 it has drawn 18,672.
        assert_refused(&mut state, 0, &summary, 21);
        for farm in [1, 2] {
            assert_eq!([(); 2].map(|()| farms_send(&mut state, farm, &summary)), [TAKEN; 2]);
            assert_refused(&mut state, farm, &summary, 21);
        }
        assert_eq!(handed_out(&mut state, 0), chunks(7));
        // 2,288 each by those two, and 14,576 by the third: 19,152.
        for (farm, sends) in [(1, 1), (2, 1), (3, 6)] {
            for _ in 0..sends {
                assert_eq!(farms_send(&mut state, farm, &summary), Ok(()));
            }
        }
        assert_refused(&mut state, 3, &summary, 21);
        for (farm, due) in [(1, 3), (2, 3), (3, 6)] {
            assert_eq!(handed_out(&mut state, farm), chunks(due));
        }
    }
}

// A spoilt running summary.

#[test]
fn a_spoilt_summary_counts_its_opened_records() {
    for mode in MODES {
        for fault in [7, 8] {
            let mut state = fresh(mode);
            assert_refused(&mut state, 0, &spoilt(mode, fault, 2, 3, 30_001), 21);
            assert_refused(&mut state, 0, &spoilt(mode, fault, 2, 3, 100_001), 21);
            assert_eq!(farms_send(&mut state, 0, &spoilt(mode, fault, 2, 3, 30_000)), Ok(()));
            assert!(state == state_with(mode, &[(0, spoilt(mode, fault, 2, 3, 30_000))]));
            assert_refused(&mut state, 0, &records(mode, 1), 21);
            assert_refused(&mut state, 1, &records(mode, 10_001), 21);
            assert_refused(&mut state, 1, &spoilt(mode, fault, 0, 0, 10_001), 21);
            // None opened: taken, and it ends elsewhere.
            assert_eq!(farms_send(&mut state, 0, &spoilt(mode, 8, 9, 5, 0)), Ok(()));
            assert_eq!(farms_send(&mut state, 1, &spoilt(mode, fault, 0, 0, 10_000)), Ok(()));
            let due = [(0, spoilt(mode, 7, 2, 5, 30_000)), (1, spoilt(mode, fault, 0, 0, 10_000))];
            // At 3 and 9 they do not meet.
            assert!(state == state_with(mode, &due));
            assert_eq!(handed_out(&mut state, 0), spoilt(mode, 7, 2, 5, 30_000));
            assert_eq!(farms_send(&mut state, 1, &spoilt(mode, fault, 0, 0, 20_000)), Ok(()));
        }
    }
}

#[test]
fn two_hills_that_do_not_meet_count_as_a_spoilt_one() {
    for mode in MODES {
        let mut state = fresh(mode);
        let deeper = |opened| Hill::empty(mode, 2, 2, 2, opened).bytes();
        assert_eq!(farms_send(&mut state, 4, &records(mode, 10_000)), Ok(()));
        assert_refused(&mut state, 4, &deeper(20_001), 21);
        assert_eq!(farms_send(&mut state, 4, &deeper(20_000)), Ok(()));
        assert!(state == state_with(mode, &[(4, spoilt(mode, 7, 1, 2, 30_000))]));
        assert_refused(&mut state, 4, &deeper(1), 21);
        assert_refused(&mut state, 5, &deeper(10_001), 21);
        // A close alone opens none.
        assert_eq!(farms_send(&mut state, 4, &Hill::empty(mode, 2, 1, 1, 0).bytes()), Ok(()));
        assert!(state == state_with(mode, &[(4, spoilt(mode, 7, 1, 1, 30_000))]));
        // The next day it is a hill again.
        assert_eq!(handed_out(&mut state, 4), spoilt(mode, 7, 1, 1, 30_000));
        assert_eq!(farms_send(&mut state, 4, &deeper(3)), Ok(()));
        assert_eq!(handed_out(&mut state, 4), deeper(3));
    }
}

#[test]
fn fault_9_never_passes_21() {
    for mode in MODES {
        // "more" is 100,001, whatever the fault.
        for fault in [7, 8, 9] {
            for opened in [0, 1, 10_000, 30_000] {
                let mut state = state_of_records(mode, [opened, 0, 0, 0, 0, 0, 0, 0]);
                for farm in 0..8 {
                    assert_refused(&mut state, farm, &spoilt(mode, fault, 1, 1, 100_001), 21);
                }
            }
        }
        // The join has fault 9: 30,000 and 100,000 are cut to 100,001.
        let mut state = state_of_records(mode, [30_000, 1, 0, 0, 0, 0, 0, 0]);
        assert_eq!(merge(&records(mode, 30_000), &records(mode, 100_000), SLOT), Ok(spoilt(mode, 9, 1, 1, 100_001)));
        assert_refused(&mut state, 0, &records(mode, 100_000), 21);
        assert_refused(&mut state, 1, &records(mode, 100_000), 21);
    }
}

// States that no call wrote.

/// A slot that begins with a length field, a kind that no summary has, and so many opened records
/// after 12 bytes.
fn claims(length: u16, opened: u32) -> Vec<u8> {
    [words(&[length, 99, 0, 0, 0, 0]), opened.to_le_bytes().to_vec()].concat()
}

#[test]
fn a_slot_that_holds_no_summary_gets_5() {
    for mode in MODES {
        // No byte at all; a length too short, too long; another kind; as much as the slot has.
        let lengths = [0, 1, 5, 7, 1_788, 1_789, 65_535].map(|length| words(&[length, 16, mode]));
        let hills = [23, 25, 1_788, 65_535].map(|length| [words(&[length]), records(mode, 1)[2..].to_vec()].concat());
        let others = [claims(16, 1), records(mode, 100_001), spoilt(mode, 9, 1, 1, 0), blank(3), vec![], vec![0xff; SLOT]];
        for bytes in lengths.into_iter().chain(hills).chain(others) {
            for farm in 0..8 {
                let mut state = state_with(mode, &[(farm as usize, bytes.clone())]);
                // 5 before 6, before 21 and before 12.
                for summary in [blank(mode), records(mode, 1), records(mode, 100_000), blank(other_modes(mode)[0]), vec![]] {
                    assert_refused(&mut state, farm, &summary, 5);
                }
                for capacity in [0, 6, 24, 1_788, 70_000] {
                    assert_not_ended(&mut state, farm, capacity, 5);
                }
                assert_refused(&mut state, 8, &blank(mode), 20);
                assert_not_ended(&mut state, 8, 0, 20);
                // For the other farms all is as ever.
                let other = (farm + 1) % 8;
                assert_eq!(farms_end_of_day(&mut state, other, 6), Ok(blank(mode)));
            }
        }
    }
}

#[test]
fn a_state_of_zeros_and_one_of_ones_serve_no_farm() {
    for byte in [0, 0xff] {
        let mut state = [byte; FARMS_STATE];
        for farm in 0..8 {
            assert_refused(&mut state, farm, &blank(1), 5);
            assert_not_ended(&mut state, farm, 1_788, 5);
        }
    }
}

#[test]
fn bytes_behind_a_summary_are_not_its_own() {
    for mode in MODES {
        // Each slot has a summary of 24 bytes, and ones behind it.
        let dirty = [&records(mode, 2)[..], &[0xff; SLOT - 24]].concat();
        let before: State = dirty.repeat(8).try_into().expect("14,304 bytes");
        for farm in 0..8 {
            let own = SLOT * farm as usize..SLOT * (farm as usize + 1);
            let with = |bytes: &[u8]| {
                let mut state = before;
                state[own.clone()].copy_from_slice(&slot(bytes));
                state
            };
            let mut state = before;
            assert_eq!(farms_send(&mut state, farm, &records(mode, 3)), Ok(()));
            assert!(state == with(&records(mode, 5)), "farm {farm}");
            // A blank adds nothing, but the slot is written.
            let mut state = before;
            assert_eq!(farms_send(&mut state, farm, &blank(mode)), Ok(()));
            assert!(state == with(&records(mode, 2)), "farm {farm}");
            // A refusal writes nothing.
            let mut state = before;
            assert_not_ended(&mut state, farm, 23, 12);
            assert_refused(&mut state, farm, &records(mode, 0), 5);
            assert_refused(&mut state, farm, &records(other_modes(mode)[0], 3), 6);
            assert_refused(&mut state, farm, &records(mode, 30_000), 21);
            assert_eq!(farms_end_of_day(&mut state, farm, 24), Ok(records(mode, 2)));
            assert!(state == with(&blank(mode)), "farm {farm}");
        }
    }
}

#[test]
fn slots_of_several_modes() {
    // Farm f has the mode of place f, and f + 1 records.
    let modes = [1, 2, 5, 4, 4, 5, 2, 1];
    let summaries = |more: u32| -> State {
        let slots = (0..8).zip(modes).flat_map(|(farm, mode)| slot(&records(mode, farm + 1 + more)));
        slots.collect::<Vec<u8>>().try_into().expect("14,304 bytes")
    };
    let mut state = summaries(0);
    for (farm, mode) in (0..8).zip(modes) {
        for other in other_modes(mode) {
            assert_refused(&mut state, farm, &blank(other), 6);
            assert_refused(&mut state, farm, &records(other, 100_000), 6);
        }
        assert_eq!(farms_send(&mut state, farm, &records(mode, 7)), Ok(()));
    }
    assert!(state == summaries(7));
    // All draw on the same 20,000, and each is blank in its own mode.
    assert_eq!(farms_send(&mut state, 1, &records(2, 29_991)), Ok(()));
    for (farm, mode) in (0..8).zip(modes).skip(2) {
        assert_refused(&mut state, farm, &records(mode, 9_993 - farm), 21);
        assert_eq!(farms_end_of_day(&mut state, farm, 24), Ok(records(mode, farm + 8)));
        assert_eq!(farms_end_of_day(&mut state, farm, 6), Ok(blank(mode)));
    }
}

#[test]
fn what_a_slot_holds_counts_be_it_a_summary_or_not() {
    for mode in MODES {
        for other in 1..8 {
            // 16 bytes and more have opened records. No slot holds more than it has.
            for length in [16, 17, 24, 1_000, 1_787, 1_788, 1_789, 32_768, 65_535] {
                let mut state = state_with(mode, &[(other, claims(length, 30_000))]);
                assert_refused(&mut state, 0, &records(mode, 10_001), 21);
                assert_eq!(farms_send(&mut state, 0, &records(mode, 10_000)), Ok(()), "length {length}");
                let mut state = state_with(mode, &[(other, claims(length, 30_001))]);
                for summary in [blank(mode), records(mode, 1)] {
                    assert_refused(&mut state, 0, &summary, 21);
                }
            }
            // Fewer have none.
            for length in [0, 1, 2, 5, 6, 11, 12, 13, 14, 15] {
                let mut state = state_with(mode, &[(other, claims(length, u32::MAX))]);
                assert_refused(&mut state, 0, &records(mode, 30_001), 21);
                assert_eq!(farms_send(&mut state, 0, &records(mode, 30_000)), Ok(()), "length {length}");
            }
        }
        // The end of day asks for no excess.
        let mut state = state_with(mode, &[(1, claims(16, u32::MAX)), (2, records(mode, 100_000))]);
        assert_eq!(farms_end_of_day(&mut state, 0, 6), Ok(blank(mode)));
        assert_eq!(farms_end_of_day(&mut state, 2, 24), Ok(records(mode, 100_000)));
        assert!(state == state_with(mode, &[(1, claims(16, u32::MAX))]));
    }
}

#[test]
fn opened_records_are_added_in_more_than_32_bits() {
    // Each number is what a slot has; of those above 10,000 it is added.
    let half = (1 << 31) + 10_000;
    let rows = [
        vec![u32::MAX],
        vec![half, half],
        vec![u32::MAX, 20_001],
        vec![u32::MAX, 20_000],
        vec![half, 1 << 31, 20_000],
        vec![u32::MAX; 7],
        vec![(1 << 30) + 10_000; 4],
    ];
    for row in rows {
        let slots: Vec<(usize, Vec<u8>)> = row.iter().enumerate().map(|(place, &opened)| (place + 1, claims(16, opened))).collect();
        let mut state = state_with(1, &slots);
        for summary in [blank(1), records(1, 1), records(1, 10_000), records(1, 30_000)] {
            assert_refused(&mut state, 0, &summary, 21);
        }
    }
}

#[test]
fn a_farm_that_has_too_many_already_gets_21_until_its_end_of_day() {
    for mode in MODES {
        let spoilt = [(7, 50_000), (9, 100_001)].map(|(fault, opened)| spoilt(mode, fault, 1, 1, opened));
        for summary in [records(mode, 30_001), records(mode, 100_000)].into_iter().chain(spoilt) {
            let mut state = state_with(mode, &[(3, summary.clone())]);
            for farm in 0..8 {
                assert_refused(&mut state, farm, &blank(mode), 21);
                assert_refused(&mut state, farm, &records(mode, 1), 21);
            }
            assert_eq!(handed_out(&mut state, 3), summary);
            assert!(state == fresh(mode));
            assert_told(&mut state, mode, &[(3, 30_000, TAKEN)]);
        }
    }
}
