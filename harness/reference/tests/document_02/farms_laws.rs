//! L11 as laws of random runs: what a farm is told and handed out, by its own calls and by those of
//! the others; what it may have opened; what the state is after each call. And the calls on states
//! that no call wrote, by what merging says. `compare` puts this to the library.

use crate::calls::{farms_end_of_day, farms_fresh, farms_send, finish, merge, merge_row, summarise};
use crate::farms::{fresh, records, slot, State, SLOT};
use reference::farms::FARMS_STATE;
use reference::gen::farms::{calls, farms, run, state, two_runs, Run};
use reference::gen::logs::{any_log, cut, encode_mixed};
use reference::gen::raw::{blank, MODES};
use reference::gen::Rng;
use reference::layout::encode;
use reference::ledger::{Call, Ledger, Told};
use reference::mode::Mode;
use std::collections::{BTreeMap, BTreeSet};

/// A call on a state, and what its farm is told.
fn make(state: &mut State, call: &Call) -> Told {
    match call {
        Call::Send { farm, summary } => farms_send(state, *farm, summary).map(|()| Vec::new()),
        Call::EndOfDay { farm, capacity } => farms_end_of_day(state, *farm, *capacity),
    }
}

/// The state at the start of a run, and the mode's number.
fn start(run: &Run) -> (State, u16) {
    let mode = run.mode.number() as u16;
    (fresh(mode), mode)
}

/// What the bytes of a slot hold: as many as their first two say, or all.
fn held(state: &State, farm: usize) -> &[u8] {
    let own = &state[SLOT * farm..SLOT * (farm + 1)];
    &own[..usize::from(u16::from_le_bytes([own[0], own[1]])).min(SLOT)]
}

/// The opened records of what a slot holds.
fn opened(held: &[u8]) -> u64 {
    if held.len() < 16 {
        return 0;
    }
    u32::from_le_bytes(held[12..16].try_into().expect("4 bytes")).into()
}

/// The farms' excess over 10,000, added.
fn excess(state: &State) -> u64 {
    (0..8).map(|farm| opened(held(state, farm))).filter(|&opened| opened > 10_000).map(|opened| opened - 10_000).sum()
}

/// The state with another summary in a farm's slot.
fn with(state: &State, farm: usize, summary: &[u8]) -> State {
    let mut then = *state;
    then[SLOT * farm..SLOT * (farm + 1)].copy_from_slice(&slot(summary));
    then
}

/// What a call comes to on any state, by what merging says: what is told, and the state then.
fn due(state: &State, call: &Call) -> (Told, State) {
    let refused = |number| (Err(number), *state);
    if call.farm() > 7 {
        return refused(20);
    }
    let farm = call.farm() as usize;
    let own = held(state, farm);
    match call {
        Call::Send { summary, .. } => match merge(own, summary, SLOT) {
            Err(number) => refused(number),
            Ok(merged) => {
                let then = with(state, farm, &merged);
                if excess(&then) > 20_000 {
                    refused(21)
                } else {
                    (Ok(Vec::new()), then)
                }
            }
        },
        // What is no summary cannot be finished.
        Call::EndOfDay { .. } if finish(own) == Err(5) => refused(5),
        Call::EndOfDay { capacity, .. } if *capacity < own.len() => refused(12),
        Call::EndOfDay { .. } => (Ok(own.to_vec()), with(state, farm, &blank(u16::from_le_bytes([own[4], own[5]])))),
    }
}

/// Summaries merged one after another, from the blank on.
fn merged(mode: u16, accepted: &[Vec<u8>]) -> Vec<u8> {
    accepted.iter().fold(blank(mode), |left, right| merge(&left, right, SLOT).expect("two summaries of one mode"))
}

/// What a farm's end of day would hand out.
fn running(state: &State, farm: u32) -> Vec<u8> {
    let mut copy = *state;
    farms_end_of_day(&mut copy, farm, SLOT).expect("a farm of a run")
}

#[test]
fn a_summary_is_the_accepted_ones_merged_in_the_order_they_came() {
    let mut rng = Rng::new(0xb11);
    let (mut most, mut days) = (0, 0);
    for _ in 0..250 {
        let run = run(&mut rng, 50);
        let (mut state, mode) = start(&run);
        // Of each farm those accepted since its last end of day that was taken.
        let mut accepted: [Vec<Vec<u8>>; 8] = Default::default();
        for call in &run.calls {
            let told = make(&mut state, call);
            match (call, told) {
                (Call::Send { farm, summary }, Ok(_)) => {
                    let own = &mut accepted[*farm as usize];
                    own.push(summary.clone());
                    assert_eq!(running(&state, *farm), merged(mode, own), "farm {farm}");
                    most = most.max(own.len());
                }
                (Call::EndOfDay { farm, .. }, Ok(summary)) => {
                    let own = &mut accepted[*farm as usize];
                    assert_eq!(summary, merged(mode, own), "farm {farm}");
                    // Half with half and each half likewise, it is the same.
                    if (2..=64).contains(&own.len()) {
                        assert_eq!(Ok(summary), merge_row(&own.concat(), SLOT), "farm {farm}");
                        days += 1;
                    }
                    own.clear();
                }
                (_, Err(_)) => {}
            }
        }
        for (farm, own) in (0..).zip(&accepted) {
            assert_eq!(running(&state, farm), merged(mode, own), "farm {farm}");
        }
    }
    assert!(most > 15 && days > 150, "{most} {days}");
}

#[test]
fn told_as_by_a_ledger_in_which_nothing_is_merged() {
    let mut rng = Rng::new(0xb12);
    for _ in 0..250 {
        let run = run(&mut rng, 50);
        let (mut state, _) = start(&run);
        let mut ledger = Ledger::fresh(run.mode);
        for (place, call) in run.calls.iter().enumerate() {
            assert_eq!(make(&mut state, call), ledger.tell(call), "call {place}, of farm {}", call.farm());
            assert_eq!(excess(&state), ledger.drawn(), "call {place}, of farm {}", call.farm());
        }
        // The state's bytes are just the eight summaries, each filled up with zeros.
        let slots: Vec<u8> = (0..8).flat_map(|farm| slot(&encode(&ledger.summary(farm)))).collect();
        assert!(state[..] == slots[..]);
        assert!((0..8).all(|farm| opened(held(&state, farm)) == ledger.opened(farm)));
    }
}

/// What one farm is told in a run.
fn told(run: &Run, farm: u32) -> Vec<Told> {
    let (mut state, _) = start(run);
    let all: Vec<Told> = run.calls.iter().map(|call| make(&mut state, call)).collect();
    run.calls.iter().zip(all).filter(|(call, _)| call.farm() == farm).map(|(_, told)| told).collect()
}

const TAKEN: Told = Ok(Vec::new());

/// The first place where two lists of what is told differ. There a send gets 21 in just one.
fn parting(first: &[Told], second: &[Told]) -> Option<usize> {
    assert_eq!(first.len(), second.len());
    let place = (0..first.len()).find(|&place| first[place] != second[place])?;
    let both = [&first[place], &second[place]];
    assert!(both == [&Err(21), &TAKEN] || both == [&TAKEN, &Err(21)], "{both:?}");
    Some(place)
}

#[test]
fn told_the_same_in_two_runs_until_a_send_gets_21_in_just_one() {
    let mut rng = Rng::new(0xb13);
    // The same all through, and with a 21; 21 first in the first run, and in the second.
    let mut seen = [0; 4];
    for _ in 0..1500 {
        let two = two_runs(&mut rng, 40);
        let [first, second] = [0, 1].map(|which| told(&two.runs[which], two.farm));
        match parting(&first, &second) {
            None => seen[usize::from(first.contains(&Err(21)))] += 1,
            Some(place) => seen[2 + usize::from(second[place] == Err(21))] += 1,
        }
    }
    assert!(seen.iter().all(|&count| count > 50), "{seen:?}");
}

#[test]
fn alone_a_farm_is_told_the_same_but_for_21() {
    let mut rng = Rng::new(0xb14);
    let mut seen = [0; 2];
    for _ in 0..200 {
        let run = run(&mut rng, 50);
        for farm in 0..8 {
            let own = run.calls.iter().filter(|call| call.farm() == farm).cloned().collect();
            let alone = told(&Run { mode: run.mode, calls: own }, farm);
            let among_others = told(&run, farm);
            let place = parting(&alone, &among_others);
            // What the others draw never helps.
            assert!(place.is_none_or(|place| among_others[place] == Err(21)), "farm {farm}");
            seen[usize::from(place.is_some())] += 1;
        }
    }
    assert!(seen.iter().all(|&count| count > 100), "{seen:?}");
}

#[test]
fn every_run_of_four_calls_by_two_farms() {
    for mode in Mode::ALL {
        let number = mode.number() as u16;
        // Sends of so many records, and ends of day with a buffer that is one byte short for them, or just long enough.
        let of_farm = |farm: u32| {
            let sends = [10_000, 10_001, 20_000].map(|opened| Call::Send { farm, summary: records(number, opened) });
            sends.into_iter().chain([23, 24].map(|capacity| Call::EndOfDay { farm, capacity }))
        };
        let calls: Vec<Call> = of_farm(0).chain(of_farm(1)).collect();
        // What farm 0 is told in all runs in which its calls are these.
        let mut lists: BTreeMap<Vec<usize>, BTreeSet<Vec<Told>>> = BTreeMap::new();
        for places in (0..10_000).map(|run| [1000, 100, 10, 1].map(|power| run / power % 10)) {
            let (mut state, mut ledger) = (fresh(number), Ledger::fresh(mode));
            let (mut own, mut told) = (Vec::new(), Vec::new());
            for place in places {
                let answer = make(&mut state, &calls[place]);
                assert_eq!(answer, ledger.tell(&calls[place]), "calls {places:?}");
                if calls[place].farm() == 0 {
                    own.push(place);
                    told.push(answer);
                }
            }
            assert!((0..8).all(|farm| held(&state, farm) == encode(&ledger.summary(farm))), "calls {places:?}");
            lists.entry(own).or_default().insert(told);
        }
        let mut parted = 0;
        for lists in lists.values() {
            for (first, second) in lists.iter().flat_map(|first| lists.iter().map(move |second| (first, second))) {
                parted += usize::from(parting(first, second).is_some());
            }
        }
        assert!(lists.len() == 1 + 5 + 25 + 125 + 625 && parted > 100, "{} {parted}", lists.len());
    }
}

#[test]
fn no_send_that_leaves_its_farm_within_10000_gets_21() {
    let mut rng = Rng::new(0xb15);
    // Sends of which some bring the farm to just 10,000, and of which all is drawn by others.
    let (mut within, mut to_the_edge, mut with_all_drawn) = (0, 0, 0);
    for _ in 0..300 {
        let run = run(&mut rng, 50);
        let (mut state, _) = start(&run);
        for call in &run.calls {
            let drawn = excess(&state);
            let left = match call {
                Call::Send { farm: farm @ 0..=7, summary } => merge(&running(&state, *farm), summary, SLOT).ok(),
                _ => None,
            };
            let told = make(&mut state, call);
            if let Some(opened) = left.map(|summary| opened(&summary)).filter(|&opened| opened <= 10_000) {
                assert_eq!(told, TAKEN, "farm {}", call.farm());
                within += 1;
                to_the_edge += usize::from(opened == 10_000);
                with_all_drawn += usize::from(drawn == 20_000);
            }
        }
    }
    assert!(within > 2000 && to_the_edge > 100 && with_all_drawn > 100, "{within} {to_the_edge} {with_all_drawn}");
}

#[test]
fn twenty_one_exactly_where_the_excess_would_be_more_than_20000() {
    let mut rng = Rng::new(0xb16);
    // Of sends that pass 20, 5 and 6: taken, and refused; to 20,000 exactly, and to 20,001.
    let (mut seen, mut edge) = ([0; 2], [0; 2]);
    for _ in 0..300 {
        let run = run(&mut rng, 50);
        let (mut state, _) = start(&run);
        for call in &run.calls {
            // By what each farm would be handed out.
            let mut summaries: Vec<Vec<u8>> = (0..8).map(|farm| running(&state, farm)).collect();
            let told = make(&mut state, call);
            let Call::Send { farm, summary } = call else { continue };
            if matches!(told, Err(20 | 5 | 6)) {
                continue;
            }
            let own = &mut summaries[*farm as usize];
            *own = merge(own, summary, SLOT).expect("two summaries of one mode");
            let would_be: u64 = summaries.iter().map(|summary| opened(summary).saturating_sub(10_000)).sum();
            assert_eq!(told, if would_be > 20_000 { Err(21) } else { TAKEN }, "farm {farm}: {would_be}");
            seen[usize::from(told.is_err())] += 1;
            edge.iter_mut().zip([20_000, 20_001]).for_each(|(seen, edge)| *seen += usize::from(would_be == edge));
        }
    }
    assert!(seen.iter().all(|&count| count > 500) && edge.iter().all(|&count| count > 100), "{seen:?} {edge:?}");
}

#[test]
fn every_state_of_a_run_is_eight_summaries_of_its_mode() {
    let mut rng = Rng::new(0xb17);
    let (mut most, mut full) = (0, 0);
    for _ in 0..300 {
        let run = run(&mut rng, 50);
        let (mut state, mode) = start(&run);
        for call in &run.calls {
            let told = make(&mut state, call);
            // 5 only for what is sent, and then it is no summary.
            if told == Err(5) {
                assert!(matches!(call, Call::Send { summary, .. } if finish(summary) == Err(5)));
            }
            for farm in 0..8 {
                let own = held(&state, farm);
                assert_ne!(finish(own), Err(5), "farm {farm}");
                assert_ne!(finish(own), Err(9), "farm {farm}");
                assert_eq!(own[4..6], mode.to_le_bytes(), "farm {farm}");
                assert!(state[SLOT * farm..SLOT * (farm + 1)] == slot(own)[..], "farm {farm}");
                assert!(opened(own) <= 30_000, "farm {farm}");
                most = most.max(opened(own));
            }
            assert!(excess(&state) <= 20_000);
            full += usize::from(excess(&state) == 20_000);
        }
    }
    assert!(most == 30_000 && full > 500, "{most} {full}");
}

#[test]
fn a_call_moves_its_own_slot_alone_and_a_refusal_none() {
    let mut rng = Rng::new(0xb18);
    for _ in 0..250 {
        let run = run(&mut rng, 50);
        let (mut state, mode) = start(&run);
        for call in &run.calls {
            let before = state;
            let then = match (call, make(&mut state, call)) {
                (_, Err(_)) => before,
                (Call::Send { farm, .. }, Ok(_)) => with(&before, *farm as usize, &running(&state, *farm)),
                (Call::EndOfDay { farm, .. }, Ok(summary)) => {
                    assert_eq!(summary, held(&before, *farm as usize));
                    with(&before, *farm as usize, &blank(mode))
                }
            };
            assert!(state == then, "farm {}", call.farm());
        }
    }
}

#[test]
fn what_a_farm_drew_can_be_drawn_after_its_end_of_day() {
    let mut rng = Rng::new(0xb19);
    let mut freed = 0;
    for round in 0..400 {
        let run = run(&mut rng, 30);
        let (mut state, mode) = start(&run);
        run.calls.iter().for_each(|call| drop(make(&mut state, call)));
        let (farm, other) = (rng.below(8), rng.below(8));
        let before = excess(&state);
        let summary = farms_end_of_day(&mut state, farm as u32, SLOT).expect("a farm of a run");
        freed += usize::from(opened(&summary) > 10_000);
        // What it drew, and nothing else, is free.
        assert_eq!(excess(&state) + opened(&summary).saturating_sub(10_000), before);
        // All that is in common and that nobody has, and one record more.
        assert_eq!(farms_end_of_day(&mut state, other as u32, SLOT).err(), None);
        let free = 30_000 - excess(&state) as u32;
        let spoilt = |opened| reference::gen::raw::spoilt(mode, 7 + round % 2, 1, 1, opened);
        assert_eq!(farms_send(&mut state, other as u32, &spoilt(free + 1)), Err(21));
        assert_eq!(farms_send(&mut state, other as u32, &spoilt(free)), Ok(()));
        assert_eq!(excess(&state), 20_000);
    }
    assert!(freed > 50, "{freed}");
}

#[test]
fn after_the_end_of_day_of_all_the_state_is_fresh() {
    let mut rng = Rng::new(0xb1a);
    for _ in 0..300 {
        let run = run(&mut rng, 30);
        let (mut state, mode) = start(&run);
        run.calls.iter().for_each(|call| drop(make(&mut state, call)));
        for farm in 0..8 {
            assert_eq!(farms_end_of_day(&mut state, farm, SLOT).err(), None);
        }
        assert!(state == fresh(mode));
    }
}

#[test]
fn farms_may_change_their_numbers() {
    let mut rng = Rng::new(0xb1b);
    for _ in 0..250 {
        let run = run(&mut rng, 40);
        // Farm f gets the number in place f.
        let mut numbers = [0, 1, 2, 3, 4, 5, 6, 7];
        (1..8).for_each(|place| numbers.swap(place, rng.below(place + 1)));
        let renamed = |farm: u32| numbers.get(farm as usize).copied().unwrap_or(farm);
        let (mut state, mode) = start(&run);
        let mut other = fresh(mode);
        for call in &run.calls {
            let farm = renamed(call.farm());
            let renamed = match call {
                Call::Send { summary, .. } => Call::Send { farm, summary: summary.clone() },
                Call::EndOfDay { capacity, .. } => Call::EndOfDay { farm, capacity: *capacity },
            };
            assert_eq!(make(&mut other, &renamed), make(&mut state, call), "farm {}", call.farm());
        }
        for (farm, number) in numbers.into_iter().enumerate() {
            assert_eq!(held(&other, number as usize), held(&state, farm), "farm {farm}");
        }
    }
}

#[test]
fn chunks_sent_in_log_order_come_to_the_summary_of_the_log() {
    let mut rng = Rng::new(0xb1c);
    for round in 0..200 {
        let mode = MODES[round % 4];
        let mut state = fresh(mode);
        let logs: Vec<_> = (0..8).map(|_| any_log(&mut rng, 30)).collect();
        // Each farm's chunks come in order; whose is next is drawn.
        let mut left: Vec<Vec<Vec<u8>>> = logs
            .iter()
            .map(|log| {
                let count = 1 + rng.below(9);
                cut(&mut rng, log, count).iter().rev().map(|chunk| encode_mixed(&mut rng, chunk)).collect()
            })
            .collect();
        while left.iter().any(|chunks| !chunks.is_empty()) {
            let farm = rng.below(8);
            if let Some(chunk) = left[farm].pop() {
                let summary = summarise(&chunk, mode.into(), SLOT).expect("readable");
                assert_eq!(farms_send(&mut state, farm as u32, &summary), Ok(()));
            }
        }
        for (farm, log) in (0..).zip(&logs) {
            let whole = summarise(&encode_mixed(&mut rng, log), mode.into(), SLOT);
            assert_eq!(farms_end_of_day(&mut state, farm, SLOT), whole);
        }
    }
}

#[test]
fn any_bytes_are_a_state() {
    let mut rng = Rng::new(0xb1d);
    // Refusals of sends and of ends of day.
    let mut seen = [[0; 22]; 2];
    for _ in 0..600 {
        let (mode, mut state) = state(&mut rng);
        let served = farms(&mut rng);
        for call in calls(&mut rng, mode, &served, state, 12) {
            let (told, then) = due(&state, &call);
            assert_eq!(make(&mut state, &call), told, "farm {}", call.farm());
            assert!(state == then, "farm {}", call.farm());
            let is_end = matches!(call, Call::EndOfDay { .. });
            seen[usize::from(is_end)][usize::from(told.err().unwrap_or(0))] += 1;
        }
    }
    assert!([0, 5, 6, 20, 21].iter().all(|&number| seen[0][number] > 50), "{seen:?}");
    assert!([0, 5, 12, 20].iter().all(|&number| seen[1][number] > 20), "{seen:?}");
}

#[test]
fn any_bytes_can_be_made_fresh_or_are_left() {
    let mut rng = Rng::new(0xb1e);
    for round in 0..300 {
        let (_, old) = state(&mut rng);
        let mode = MODES[round % 4];
        let mut state = old;
        assert_eq!(farms_fresh(mode.into(), &mut state), Ok(()));
        assert!(state[..] == slot(&blank(mode)).repeat(8)[..]);
        let other = [0, 3, rng.bits() as u32 | 8, u32::from(mode) + (1 << 16)][round / 4 % 4];
        let mut state: [u8; FARMS_STATE] = old;
        assert_eq!(farms_fresh(other, &mut state), Err(1));
        assert!(state == old);
    }
}
