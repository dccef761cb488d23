//! Eight farms on one station: the proved library against the reference, every byte of the state and of every buffer. What L11 says
//! sentence by sentence, and its laws, are put to the library by `document_02`.

use compare::agree::{self, farms_call, farms_end_of_day, farms_fresh, farms_send, State};
use compare::{calls as library, lend_state, LentBytes};
use reference::calls;
use reference::farms::{held, opened, FARMS_STATE, SLOT};
use reference::gen::farms::{self as drawn, Run};
use reference::gen::raw::{blank, in_mode, spoilt, Hill, MODES};
use reference::gen::{damage, forged, Rng};
use reference::layout::encode;
use reference::ledger::Call;
use reference::mode::Mode;
use std::hint::black_box;
use std::path::Path;
use tulghimo::raw;

/// A fresh state in a mode, over bytes that none has.
fn fresh(mode: u16) -> State {
    let mut state = [0xa5; FARMS_STATE];
    assert_eq!(farms_fresh(mode.into(), &mut state), [0]);
    state
}

/// A run of so many calls in a mode, of all farms or of a few.
fn run_in(rng: &mut Rng, mode: Mode, count: usize) -> Run {
    let served = drawn::farms(rng);
    Run { mode, calls: drawn::calls(rng, mode, &served, reference::farms::fresh(mode), count) }
}

/// The state at the start of a run.
fn start(run: &Run) -> State {
    fresh(run.mode.number() as u16)
}

/// Calls on a state, in step with the reference. Counts for each refusal how often it is the answer, and at 0 what is taken.
fn calls_agree(state: &mut State, calls: &[Call], told: &mut [usize; 22]) {
    for call in calls {
        let answers = farms_call(state, call);
        let last = answers.last().expect("an answer");
        told[usize::try_from(-last).unwrap_or(0)] += 1;
    }
}

/// Every call of a farm on a state, each on the state as it is, in step with the reference: a blank, a summary and many opened records
/// sent in a mode, and an end of day.
fn every_call_agrees(state: &State, farm: u32, mode: u16) {
    for summary in [blank(mode), records(mode, 1), records(mode, 10_001), vec![]] {
        farms_send(&mut state.clone(), farm, &summary);
    }
    farms_end_of_day(&mut state.clone(), farm, 24);
}

/// A summary with so many opened records, 1 to 100,000, from level 1 to level 1.
fn records(mode: u16, opened: u32) -> Vec<u8> {
    Hill::empty(mode, 1, 1, 1, opened).bytes()
}

/// A slot that begins with these bytes and is filled up with others.
fn slot(bytes: &[u8], rest: u8) -> Vec<u8> {
    let mut slot = bytes.to_vec();
    slot.resize(SLOT, rest);
    slot
}

/// The state of eight slots that begin with these bytes.
fn state_of(summaries: &[Vec<u8>]) -> State {
    let slots: Vec<u8> = summaries.iter().flat_map(|summary| slot(summary, 0)).collect();
    slots.try_into().expect("eight slots")
}

/// The longest summary, of 1,788 bytes, with so many opened records.
fn longest(mode: u16, opened: u32) -> Vec<u8> {
    let longest = Hill::empty(mode, 64, 1, 64, opened).bytes();
    assert_eq!(longest.len(), SLOT);
    longest
}

/// Summaries of many lengths: a blank, a spoilt one, and hills from 24 bytes to 1,788.
fn of_many_lengths(mode: u16) -> Vec<Vec<u8>> {
    let hills = [(1, 1, 1), (2, 1, 1), (0, 0, 1), (3, 1, 3), (64, 1, 1), (0, 0, 64)];
    let mut all: Vec<_> = hills.map(|(start, peak, end)| Hill::empty(mode, start, peak, end, 64).bytes()).into();
    all.extend([blank(mode), spoilt(mode, 7, 3, 64, 30_000), longest(mode, 63)]);
    all
}

#[test]
fn random_runs_call_by_call() {
    let mut rng = Rng::new(0xfa40);
    let mut told = [0; 22];
    for round in 0..400 {
        let run = drawn::run(&mut rng, if round % 50 == 0 { 400 } else { 50 });
        calls_agree(&mut start(&run), &run.calls, &mut told);
    }
    assert!([0, 5, 6, 12, 20, 21].iter().all(|&number| told[number] > 200), "{told:?}");
}

#[test]
fn ten_thousand_calls_on_one_state() {
    let mut rng = Rng::new(0xfa41);
    let mode = Mode::Eaten;
    let calls = drawn::calls(&mut rng, mode, &[0, 1, 2, 3, 4, 5, 6, 7], reference::farms::fresh(mode), 10_000);
    let mut told = [0; 22];
    calls_agree(&mut fresh(5), &calls, &mut told);
    assert!([0, 5, 6, 12, 20, 21].iter().all(|&number| told[number] > 200), "{told:?}");
}

/// Runs on as many states at once. Whose call is next is drawn.
fn agree_in_turns(rng: &mut Rng, runs: &[Run], told: &mut [usize; 22]) {
    let mut states: Vec<State> = runs.iter().map(start).collect();
    let mut left: Vec<&[Call]> = runs.iter().map(|run| &run.calls[..]).collect();
    while left.iter().any(|calls| !calls.is_empty()) {
        let which = rng.below(runs.len());
        let (now, later) = left[which].split_at(left[which].len().min(1));
        calls_agree(&mut states[which], now, told);
        left[which] = later;
    }
}

#[test]
fn pairs_of_runs_in_turns() {
    let mut rng = Rng::new(0xfa42);
    let mut told = [0; 22];
    // A farm's calls are the same in both: how often it is told other than in the other run.
    let mut parted = 0;
    for _ in 0..300 {
        let two = drawn::two_runs(&mut rng, 40);
        agree_in_turns(&mut rng, &two.runs, &mut told);
        let [first, second] = &two.runs;
        let answers = agree::two_runs(first.mode.number(), [&first.calls, &second.calls]);
        parted += usize::from(answers.chunks(2).any(|both| both[0] != both[1]));
    }
    assert!([0, 5, 6, 12, 20, 21].iter().all(|&number| told[number] > 200) && parted > 50, "{told:?} {parted}");
}

#[test]
fn states_of_all_modes_at_once() {
    let mut rng = Rng::new(0xfa43);
    let mut told = [0; 22];
    for _ in 0..60 {
        let runs = Mode::ALL.map(|mode| run_in(&mut rng, mode, 40));
        agree_in_turns(&mut rng, &runs, &mut told);
    }
    assert!([0, 5, 6, 12, 20, 21].iter().all(|&number| told[number] > 100), "{told:?}");
}

/// A call on a state that stands so many bytes past an address that is a multiple of 16.
fn agree_at(past: usize, state: &mut State, call: &Call) {
    let mut due = *state;
    match call {
        Call::Send { farm, summary } => {
            let expected = calls::farms_send(&mut due, *farm, summary).map_or_else(|number| -i64::from(number), |()| 0);
            assert_eq!(lend_state(state, past, |lent| raw::farms_send(lent, *farm, summary)), expected);
        }
        Call::EndOfDay { farm, capacity } => {
            let expected = calls::farms_end_of_day(&mut due, *farm, *capacity);
            let end = |out: &mut [u8]| lend_state(state, past, |lent| raw::farms_end_of_day(lent, *farm, out));
            assert_eq!(LentBytes::new(*capacity).lend(end), expected);
        }
    }
    assert!(*state == due, "farm {}, {past} bytes past", call.farm());
}

#[test]
fn a_state_at_every_address() {
    let mut rng = Rng::new(0xfa44);
    for past in (0..16).cycle().take(160) {
        let run = drawn::run(&mut rng, 30);
        let mut state = [0; FARMS_STATE];
        assert_eq!(lend_state(&mut state, past, |lent| raw::farms_fresh(run.mode.number(), lent)), 0);
        assert!(state == reference::farms::fresh(run.mode));
        run.calls.iter().for_each(|call| agree_at(past, &mut state, call));
    }
}

#[test]
fn a_state_that_is_moved_between_calls() {
    let mut rng = Rng::new(0xfa45);
    for _ in 0..100 {
        let run = drawn::run(&mut rng, 50);
        let mut state = start(&run);
        for call in &run.calls {
            agree_at(rng.below(16), &mut state, call);
        }
    }
}

#[test]
fn a_state_that_stays_in_its_place() {
    let mut rng = Rng::new(0xfa46);
    let mut state = [0; FARMS_STATE];
    let mut out = [0; SLOT + 1];
    for _ in 0..100 {
        let run = drawn::run(&mut rng, 50);
        let mut due = reference::farms::fresh(run.mode);
        assert_eq!(raw::farms_fresh(run.mode.number(), &mut state), 0);
        for call in &run.calls {
            let (answer, expected) = match call {
                Call::Send { farm, summary } => {
                    (raw::farms_send(&mut state, *farm, summary), calls::farms_send(&mut due, *farm, summary).map(|()| vec![]))
                }
                Call::EndOfDay { farm, capacity } => (
                    raw::farms_end_of_day(&mut state, *farm, &mut out[..*capacity]),
                    calls::farms_end_of_day(&mut due, *farm, *capacity),
                ),
            };
            if let Ok(summary) = &expected {
                assert_eq!(&out[..summary.len()], summary);
            }
            assert_eq!(answer, expected.map_or_else(|number| -i64::from(number), |summary| summary.len() as i64));
            assert!(state == due);
        }
    }
}

#[test]
fn every_farm_number() {
    let mut rng = Rng::new(0xfa47);
    let powers = (3..32).flat_map(|bit| [(1 << bit) - 1, 1 << bit, (1 << bit) + 1, (1 << bit) + 7]);
    let farms: Vec<u32> = (0..=300).chain(powers).chain([u32::MAX - 8, u32::MAX - 7, u32::MAX - 1, u32::MAX]).collect();
    for mode in MODES {
        let used = state_of(&[1, 9_999, 10_000, 10_001, 29_999, 5, 6, 7].map(|opened| records(mode, opened)));
        let (_, any) = drawn::state(&mut rng);
        for state in [fresh(mode), used, any] {
            for &farm in &farms {
                every_call_agrees(&state, farm, mode);
                if farm > 7 {
                    assert_eq!(farms_send(&mut state.clone(), farm, &blank(mode)), [-20], "farm {farm}");
                    assert!(farms_end_of_day(&mut state.clone(), farm, 0).iter().all(|&answer| answer == -20), "farm {farm}");
                }
            }
        }
    }
}

#[test]
fn every_mode_number_at_fresh() {
    let mut rng = Rng::new(0xfa48);
    let wide = (8..32).flat_map(|bit| (0..8).map(move |mode| (1 << bit) + mode));
    for mode in (0..=600).chain(65_530..=65_545).chain(wide).chain(u32::MAX - 8..=u32::MAX) {
        let (_, any) = drawn::state(&mut rng);
        for mut state in [any, fresh(5), [0; FARMS_STATE], [0xff; FARMS_STATE]] {
            let due = if [1, 2, 4, 5].contains(&mode) { 0 } else { -1 };
            assert_eq!(farms_fresh(mode, &mut state), [due], "mode {mode}");
        }
    }
}

#[test]
fn all_pairs_of_small_summaries() {
    let ends = || (0..=3).flat_map(|start| (0..=3).map(move |end| (start, end)));
    for mode in MODES {
        let hill = |start, peak, end: u16| Hill::empty(mode, start, peak, end, 1 + u32::from(end)).bytes();
        let mut summaries: Vec<Vec<u8>> =
            ends().flat_map(|(start, end)| (0..=start.min(end)).map(move |peak| hill(start, peak, end))).collect();
        summaries.extend([blank(mode), spoilt(mode, 7, 0, 1, 2), spoilt(mode, 8, 2, 2, 0), spoilt(mode, 9, 1, 0, 100_001)]);
        let mut taken = 0;
        for (left, right) in summaries.iter().flat_map(|left| summaries.iter().map(move |right| (left, right))) {
            let mut state = fresh(mode);
            // A hill whose peak is at level 0, and neither of its ends, is no summary.
            let answers = [farms_send(&mut state, 3, left), farms_send(&mut state, 3, right)].concat();
            taken += usize::from(answers == [0, 0]);
            farms_end_of_day(&mut state, 3, SLOT);
        }
        assert!(taken > 300, "{taken}");
    }
}

#[test]
fn forged_summaries_onto_each_other() {
    let mut rng = Rng::new(0xfa49);
    let mut told = [0; 22];
    for round in 0..300 {
        let mode = Mode::ALL[round % 4];
        let mut state = start(&Run { mode, calls: vec![] });
        let count = 2 + rng.below(12);
        let row: Vec<Call> = forged::neighbours(&mut rng, mode, count, 20)
            .iter()
            .map(|summary| Call::Send { farm: round as u32 % 8, summary: encode(summary) })
            .collect();
        calls_agree(&mut state, &row, &mut told);
        farms_end_of_day(&mut state, round as u32 % 8, SLOT);
    }
    assert!(told[0] > 500 && told[21] > 100, "{told:?}");
}

#[test]
fn states_that_no_call_wrote() {
    let mut rng = Rng::new(0xfa4a);
    let mut told = [0; 22];
    for _ in 0..800 {
        let (mode, mut state) = drawn::state(&mut rng);
        let served = drawn::farms(&mut rng);
        let calls = drawn::calls(&mut rng, mode, &served, state, 12);
        calls_agree(&mut state, &calls, &mut told);
        // A mode in use, or none.
        farms_fresh(rng.pick(&[1, 2, 3, 4, 5, 6]), &mut state);
    }
    assert!([0, 5, 6, 12, 20, 21].iter().all(|&number| told[number] > 100), "{told:?}");
}

#[test]
fn states_of_random_bytes() {
    let mut rng = Rng::new(0xfa4b);
    for _ in 0..300 {
        let mut state = [0; FARMS_STATE];
        state.iter_mut().for_each(|byte| *byte = rng.bits() as u8);
        // Some lengths that are within the slot, some opened counts below 2^24.
        for slot in state.chunks_mut(SLOT) {
            if rng.one_in(2) {
                slot[1] = rng.below(8) as u8;
            }
            if rng.one_in(3) {
                slot[13..16].fill(0);
            }
        }
        for farm in 0..8 {
            let mode = rng.pick(&MODES);
            every_call_agrees(&state, farm, mode);
        }
    }
}

#[test]
fn every_length_field_of_a_slot() {
    let lengths = (0..=130).chain(1_770..=1_810).chain([255, 256, 257, 262, 2_000, 3_576, 14_304, 32_768, 65_530, 65_535]);
    for length in lengths {
        for mode in [1, 5] {
            // Behind a blank stand zeros, or another summary's bytes.
            for mut bytes in [slot(&blank(mode), 0), slot(&spoilt(mode, 8, 1, 1, 30_000), 0xff), longest(mode, 25_000)] {
                bytes[..2].copy_from_slice(&u16::to_le_bytes(length));
                let mut slots = vec![slot(&records(mode, 9_000), 0); 8];
                slots[3] = bytes;
                let state = state_of(&slots);
                every_call_agrees(&state, 3, mode);
                // What the slot holds counts for another farm.
                farms_send(&mut state.clone(), 4, &records(mode, 6_000));
            }
        }
    }
}

#[test]
fn slots_of_every_mode_and_of_none() {
    let modes = [0, 1, 2, 3, 4, 5, 6, 256, 257, 261, 65_535];
    for (own, sent) in modes.iter().flat_map(|&own| modes.iter().map(move |&sent| (own, sent))) {
        for bytes in [blank(own), records(own, 7), spoilt(own, 7, 1, 2, 7)] {
            // The other slots are of a mode that may be neither.
            let mut slots = vec![records(4, 9); 8];
            slots[6] = bytes;
            let state = state_of(&slots);
            every_call_agrees(&state, 6, sent);
            farms_send(&mut state.clone(), 6, &spoilt(sent, 8, 2, 2, 1));
        }
    }
}

#[test]
fn excesses_around_20000_by_all_farms() {
    let mut rng = Rng::new(0xfa4c);
    // The sum that a send would leave: below 20,000, just as many, and more.
    let mut seen = [0; 3];
    for round in 0..1_000 {
        let mode = MODES[round % 4];
        let sum = 19_998 + rng.below(5) as u32;
        // Some farms draw parts of the sum, the others are within their own.
        let drawing = 1 + rng.below(8);
        let mut counts: Vec<u32> = (0..8).map(|_| rng.pick(&[1, 5_000, 9_999, 10_000])).collect();
        let mut left = sum;
        for (place, count) in counts.iter_mut().enumerate().take(drawing) {
            let part = if place + 1 == drawing { left } else { rng.below(left as usize + 1) as u32 };
            *count = 10_000 + part;
            left -= part;
        }
        let first = rng.below(8);
        counts.rotate_left(first);
        let summaries: Vec<Vec<u8>> = counts.iter().map(|&count| records(mode, count)).collect();
        for farm in 0..8 {
            for sent in [blank(mode), records(mode, 1), records(mode, 2), spoilt(mode, 8, 1, 1, 3)] {
                let mut state = state_of(&summaries);
                let told = farms_send(&mut state, farm, &sent);
                let own = counts[farm as usize] + opened(&sent) as u32;
                let would_be = sum + own.saturating_sub(10_000) - counts[farm as usize].saturating_sub(10_000);
                assert_eq!(told, [if would_be > 20_000 { -21 } else { 0 }], "farm {farm} of {counts:?}");
                let place = [would_be < 20_000, would_be == 20_000, would_be > 20_000].iter().position(|&is| is);
                seen[place.expect("one of them")] += 1;
            }
        }
    }
    assert!(seen.iter().all(|&count| count > 1_000), "{seen:?}");
}

#[test]
fn buffers_of_every_length() {
    for mode in MODES {
        for summary in of_many_lengths(mode) {
            let mut slots = vec![records(mode, 7); 8];
            slots[5] = summary.clone();
            let before = state_of(&slots);
            let exact = summary.len();
            for capacity in (0..=exact + 20).chain([SLOT, SLOT + 1, 65_535, 65_536, 1_000_000]) {
                let mut state = before;
                let told = library::farms_end_of_day(&mut state, 5, capacity);
                assert_eq!(told, if capacity < exact { Err(12) } else { Ok(summary.clone()) }, "{capacity} bytes for {exact}");
                slots[5] = if capacity < exact { summary.clone() } else { blank(mode) };
                assert!(state == state_of(&slots), "{capacity} bytes for {exact}");
            }
            farms_end_of_day(&mut before.clone(), 5, exact);
        }
    }
}

#[test]
fn slices_of_any_length() {
    let mut rng = Rng::new(0xfa4d);
    let short = [0, 1, 2, 4, 5, 6, 7, 15, 16, 17, 23, 24, 25, 1_787, 1_788, 1_789];
    // Three of these are in 16 bits as long as a blank, a spoilt summary and the shortest hill.
    let long = [65_535, 65_536, 65_537, 65_542, 65_552, 65_560, 1_000_000];
    for mode in MODES {
        let used = state_of(&[1, 2, 3, 30_000, 10_000, 6, 7, 8].map(|opened| records(mode, opened)));
        for length in short.into_iter().chain(long) {
            // As many zeros and ones, any bytes, and summaries that are cut or have something behind them.
            let noise = (0..length).map(|_| rng.bits() as u8).collect();
            let mut slices = vec![vec![0; length], vec![0xff; length], noise];
            for summary in of_many_lengths(mode) {
                slices.push(summary.into_iter().chain([0].into_iter().cycle()).take(length).collect());
            }
            for slice in slices {
                for state in [fresh(mode), used] {
                    for farm in [0, 4, 7, 8] {
                        let told = farms_send(&mut state.clone(), farm, &slice);
                        assert!(length < 1_789 || told == [if farm == 8 { -20 } else { -5 }], "{length} bytes: {told:?}");
                    }
                }
            }
        }
    }
}

#[test]
fn slices_of_every_length_at_every_address() {
    for mode in MODES {
        let summary = Hill::empty(mode, 2, 1, 2, 5).bytes();
        let state = state_of(&vec![Hill::empty(mode, 1, 1, 2, 4).bytes(); 8]);
        for before in 0..16 {
            // Other bytes stand before the slice, and another summary after it.
            let lent = [vec![0xa5; before], summary.clone(), blank(mode)].concat();
            for end in before..=lent.len() {
                let told = farms_send(&mut state.clone(), 2, &lent[before..end]);
                assert_eq!(told, [if end == before + summary.len() { 0 } else { -5 }]);
            }
        }
        for first in 1..=summary.len() {
            assert_eq!(farms_send(&mut state.clone(), 2, &summary[first..]), [-5]);
        }
    }
}

#[test]
fn every_bit_of_a_summary_flipped() {
    let mut rng = Rng::new(0xfa4e);
    for round in 0..40 {
        let mode = Mode::ALL[round % 4];
        let run = run_in(&mut rng, mode, 20);
        let mut state = reference::farms::fresh(mode);
        run.calls.iter().for_each(|call| drop(farms_call(&mut state, call)));
        let mut sent = encode(&forged::summary(&mut rng, mode));
        sent.truncate(120);
        for bit in 0..8 * sent.len() {
            sent[bit / 8] ^= 1 << (bit % 8);
            farms_send(&mut state.clone(), round as u32 % 8, &sent);
            sent[bit / 8] ^= 1 << (bit % 8);
        }
    }
}

#[test]
fn every_bit_at_the_start_of_a_slot_flipped() {
    let mut rng = Rng::new(0xfa4f);
    for mode in Mode::ALL {
        let calls = drawn::calls(&mut rng, mode, &[0, 1, 2, 3, 4, 5, 6, 7], reference::farms::fresh(mode), 40);
        let mut state = reference::farms::fresh(mode);
        calls.iter().for_each(|call| drop(farms_call(&mut state, call)));
        let summary = records(mode.number() as u16, 10_000);
        for farm in 0..8 {
            // The head, the first values, and a byte behind most summaries.
            for place in (0..48).chain([1_787]) {
                for bit in 0..8 {
                    let mut flipped = state;
                    flipped[SLOT * farm + place] ^= 1 << bit;
                    // By the farm itself and by its neighbour.
                    farms_send(&mut flipped.clone(), farm as u32, &summary);
                    farms_send(&mut flipped.clone(), (farm as u32 + 1) % 8, &summary);
                    farms_end_of_day(&mut flipped, farm as u32, 100);
                }
            }
        }
    }
}

#[test]
fn damaged_states_of_runs() {
    let mut rng = Rng::new(0xfa50);
    for _ in 0..150 {
        let run = drawn::run(&mut rng, 12);
        let mut state = start(&run);
        for call in &run.calls {
            // One thing changed in a slot; what comes after it is moved, within the slot.
            let farm = rng.below(8);
            let own = SLOT * farm..SLOT * (farm + 1);
            let damaged = damage::damage(&mut rng, &state[own.clone()][..held(&state)[farm].len()]);
            let mut other = state;
            other[own].copy_from_slice(&slot(&damaged, 0)[..SLOT]);
            farms_call(&mut other, call);
            farms_call(&mut state, call);
        }
    }
}

#[test]
fn no_byte_of_the_summary_is_written() {
    let mut rng = Rng::new(0xfa51);
    for _ in 0..200 {
        let run = drawn::run(&mut rng, 20);
        let mut state = start(&run);
        for call in &run.calls {
            if let Call::Send { farm, summary } = call {
                // With 64 bytes before the summary and 64 after it.
                let before = [vec![0xa5; 64], summary.clone(), vec![0x5a; 64]].concat();
                let lent = before.clone();
                black_box(raw::farms_send(&mut state, *farm, black_box(&lent[64..64 + summary.len()])));
                assert!(black_box(lent) == before, "farm {farm}");
            }
        }
    }
    // A constant stands where nothing can be written.
    static BLANK: [u8; 6] = [6, 0, 16, 0, 1, 0];
    let mut state = fresh(1);
    assert_eq!([raw::farms_send(&mut state, 7, &BLANK), raw::farms_send(&mut state, 7, &BLANK[..5])], [0, -5]);
}

/// The bytes of each record of a log.
fn records_of(mut log: &[u8]) -> Vec<&[u8]> {
    let mut records = Vec::new();
    while !log.is_empty() {
        let (record, rest) = log.split_at(log[0].into());
        records.push(record);
        log = rest;
    }
    records
}

#[test]
fn the_sample_logs_sent_by_eight_farms() {
    let names = ["d", "d-batches", "weekday", "returns", "quiet", "deep", "short-below-zero", "full-below-zero"];
    let logs = names.map(|name| {
        let path = Path::new(env!("CARGO_MANIFEST_DIR")).join("../../samples").join(format!("{name}.log"));
        std::fs::read(path).expect(name)
    });
    for mode in MODES {
        for size in [1, 2, 7, 1_000] {
            let mut state = fresh(mode);
            // A chunk of so many records of each log in turn.
            let chunks: Vec<Vec<Vec<u8>>> =
                logs.iter().map(|log| records_of(log).chunks(size).map(<[_]>::concat).collect()).collect();
            for place in 0..chunks.iter().map(Vec::len).max().expect("eight logs") {
                for (farm, chunks) in (0..).zip(&chunks) {
                    if let Some(chunk) = chunks.get(place) {
                        let summary = calls::summarise(chunk, mode.into(), SLOT).expect("readable");
                        assert_eq!(farms_send(&mut state, farm, &summary), [0]);
                    }
                }
            }
            for (farm, log) in (0..).zip(&logs) {
                let whole = library::farms_end_of_day(&mut state, farm, SLOT);
                assert_eq!(whole, calls::summarise(log, mode.into(), SLOT), "{}", names[farm as usize]);
                let figure = calls::day(log).map(|figures| in_mode(mode, figures));
                assert_eq!(whole.and_then(|summary| library::finish(&summary)), figure, "{}", names[farm as usize]);
            }
            assert!(state == fresh(mode));
        }
    }
}
