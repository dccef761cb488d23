//! The generated runs of eight farms are of all kinds: each refusal, records up to each limit and
//! one beyond, all cases of summaries, 21 in just one of two runs; and so are the states that no
//! call wrote.

use reference::calls::{farms_end_of_day, farms_send};
use reference::farms::{held, opened, FARMS_STATE, SLOT};
use reference::gen::farms::{calls, farms, run, state, two_runs, Run};
use reference::gen::Rng;
use reference::layout::decode;
use reference::ledger::{Call, Ledger, Told};
use reference::mode::Mode;
use reference::summary::{Case, Summary};
use std::collections::BTreeSet;

/// The counts of those that are found.
fn add<const N: usize>(seen: &mut [usize; N], found: [bool; N]) {
    seen.iter_mut().zip(found).for_each(|(seen, found)| *seen += usize::from(found));
}

/// Blank, spoilt with fault 7, 8 or 9, or a hill.
fn case(summary: &Summary) -> [bool; 5] {
    let fault = match &summary.case {
        Case::Spoilt(spoilt) => spoilt.fault,
        _ => 0,
    };
    [summary.case == Case::Blank, fault == 7, fault == 8, fault == 9, matches!(summary.case, Case::Hill(_))]
}

#[test]
fn sends_and_ends_of_day_get_every_answer() {
    let mut rng = Rng::new(0xb21);
    let mut seen = [[0; 22]; 2];
    for _ in 0..100 {
        let run = run(&mut rng, 50);
        let mut ledger = Ledger::fresh(run.mode);
        for call in &run.calls {
            let is_end = matches!(call, Call::EndOfDay { .. });
            let told = ledger.tell(call);
            seen[usize::from(is_end)][usize::from(told.err().unwrap_or(0))] += 1;
        }
    }
    assert!([0, 5, 6, 20, 21].iter().all(|&number| seen[0][number] > 100), "{seen:?}");
    assert!([0, 12, 20].iter().all(|&number| seen[1][number] > 30), "{seen:?}");
}

#[test]
fn records_come_to_each_limit_and_one_beyond() {
    let mut rng = Rng::new(0xb22);
    // The farm's own at 9,999, 10,000 and 10,001, taken; what all draw at 19,999 and 20,000, taken,
    // and 20,001, refused: by one farm, by two or three, by four and more.
    let (mut own, mut drawn) = ([0; 3], [[0; 3]; 3]);
    for _ in 0..300 {
        let run = run(&mut rng, 50);
        let mut ledger = Ledger::fresh(run.mode);
        for call in &run.calls {
            let Call::Send { farm: farm @ 0..=7, summary } = call else {
                let _ = ledger.tell(call);
                continue;
            };
            let farm = *farm as usize;
            let sent = decode(summary).filter(|sent| sent.mode == run.mode).and_then(|sent| sent.ends());
            let mut counts: Vec<u64> = (0..8).map(|farm| ledger.opened(farm)).collect();
            let taken = ledger.tell(call).is_ok();
            if let Some((_, _, sent)) = sent.filter(|(_, _, sent)| *sent > 0) {
                counts[farm] += sent;
                add(&mut own, [9_999, 10_000, 10_001].map(|edge| taken && counts[farm] == edge));
                let above: Vec<u64> = counts.iter().map(|count| count.saturating_sub(10_000)).filter(|&above| above > 0).collect();
                let sum: u64 = above.iter().sum();
                if let Some(several) = [1..=1, 2..=3, 4..=8].iter().position(|range| range.contains(&above.len())) {
                    add(&mut drawn[several], [19_999, 20_000, 20_001].map(|edge| sum == edge && taken == (edge <= 20_000)));
                }
            }
        }
    }
    assert!(own.iter().all(|&count| count > 50), "{own:?}");
    assert!(drawn.iter().flatten().all(|&count| count > 20), "{drawn:?}");
}

#[test]
fn summaries_sent_and_handed_out_are_of_all_cases() {
    let mut rng = Rng::new(0xb23);
    // Sent, and taken; handed out; and left by a 12.
    let mut seen = [[0; 5]; 4];
    let (mut lengths, mut modes) = (BTreeSet::new(), BTreeSet::new());
    for _ in 0..200 {
        let run = run(&mut rng, 50);
        let mut ledger = Ledger::fresh(run.mode);
        modes.insert(run.mode.number());
        for call in &run.calls {
            let farm = call.farm().min(7) as usize;
            let own = case(&ledger.summary(farm));
            match (call, ledger.tell(call)) {
                (Call::Send { summary, .. }, told) => {
                    if let Some(sent) = decode(summary) {
                        add(&mut seen[0], case(&sent));
                        add(&mut seen[1], case(&sent).map(|found| found && told.is_ok()));
                    }
                }
                (Call::EndOfDay { .. }, Ok(summary)) => {
                    add(&mut seen[2], own);
                    lengths.insert(summary.len());
                }
                (Call::EndOfDay { .. }, Err(number)) => add(&mut seen[3], own.map(|found| found && number == 12)),
            }
        }
    }
    // Fault 9 is sent and never taken.
    let [sent, taken, handed_out, left] = seen;
    assert!(sent.iter().all(|&count| count > 20), "{seen:?}");
    for seen in [taken, handed_out, left] {
        assert!([0, 1, 2, 4].iter().all(|&case| seen[case] > 10) && seen[3] == 0, "{seen:?}");
    }
    assert!(lengths.len() > 50 && lengths.contains(&SLOT), "{lengths:?}");
    assert_eq!(modes, Mode::ALL.map(Mode::number).into());
}

#[test]
fn buffers_are_of_all_lengths_around_the_exact_one() {
    let mut rng = Rng::new(0xb24);
    // None, one byte short, exact, one byte more, and as long as the longest summary.
    let mut seen = [0; 5];
    for _ in 0..200 {
        let run = run(&mut rng, 50);
        let mut ledger = Ledger::fresh(run.mode);
        for call in &run.calls {
            if let Call::EndOfDay { farm: farm @ 0..=7, capacity } = call {
                let exact = reference::layout::encode(&ledger.summary(*farm as usize)).len();
                add(&mut seen, [0, exact - 1, exact, exact + 1, SLOT].map(|length| *capacity == length));
                assert!(*capacity <= SLOT + 1);
            }
            let _ = ledger.tell(call);
        }
    }
    assert!(seen.iter().all(|&count| count > 50), "{seen:?}");
}

#[test]
fn farms_that_are_not_there_are_of_all_kinds() {
    let mut rng = Rng::new(0xb25);
    // 8, 9, 2^32 - 1; and such as are there in their low 8, 16 or 31 bits.
    let (mut seen, mut there) = ([0; 6], [0; 8]);
    for _ in 0..300 {
        for call in run(&mut rng, 50).calls {
            let farm = call.farm();
            match there.get_mut(farm as usize) {
                Some(count) => *count += 1,
                None => {
                    let cut = |bits: u32| farm % (1 << bits) <= 7;
                    add(&mut seen, [farm == 8, farm == 9, farm == u32::MAX, cut(8), cut(16), cut(31)]);
                }
            }
        }
    }
    assert!(seen.iter().all(|&count| count > 50) && there.iter().all(|&count| count > 500), "{seen:?} {there:?}");
}

#[test]
fn runs_have_one_farm_or_all_and_days_of_many_sends() {
    let mut rng = Rng::new(0xb26);
    let mut farms_of_runs = [0; 9];
    let mut longest = 0;
    for _ in 0..200 {
        let run = run(&mut rng, 50);
        let there: BTreeSet<u32> = run.calls.iter().map(Call::farm).filter(|&farm| farm < 8).collect();
        farms_of_runs[there.len()] += 1;
        let mut since = [0; 8];
        let mut ledger = Ledger::fresh(run.mode);
        for call in &run.calls {
            if ledger.tell(call).is_ok() {
                let own = &mut since[call.farm() as usize];
                *own = if matches!(call, Call::Send { .. }) { *own + 1 } else { 0 };
                longest = longest.max(*own);
            }
        }
    }
    assert!([1, 2, 3, 8].iter().all(|&count| farms_of_runs[count] > 20) && longest > 15, "{farms_of_runs:?} {longest}");
}

/// What each call of a run is told.
fn all_told(run: &Run) -> Vec<Told> {
    let mut ledger = Ledger::fresh(run.mode);
    run.calls.iter().map(|call| ledger.tell(call)).collect()
}

#[test]
fn of_two_runs_one_farms_calls_are_the_same() {
    let mut rng = Rng::new(0xb27);
    // The second run has no other calls, fewer than the first, or more; 21 in just one of them.
    let (mut others, mut parted) = ([0; 3], [0; 2]);
    for _ in 0..600 {
        let two = two_runs(&mut rng, 40);
        let own = |run: &Run| run.calls.iter().filter(|call| call.farm() == two.farm).cloned().collect::<Vec<Call>>();
        let [first, second] = &two.runs;
        assert_eq!((first.mode, own(first)), (second.mode, own(second)));
        assert!(!own(first).is_empty());
        let count = |run: &Run| run.calls.len() - own(run).len();
        let (one, other) = (count(first), count(second));
        add(&mut others, [other == 0 && one > 0, 0 < other && other < one, one < other]);
        let refused = [first, second].map(|run| {
            let told = run.calls.iter().zip(all_told(run));
            told.filter(|(call, told)| call.farm() == two.farm && *told == Err(21)).count()
        });
        add(&mut parted, [refused[0] > refused[1], refused[0] < refused[1]]);
    }
    assert!(others.iter().all(|&count| count > 50) && parted.iter().all(|&count| count > 30), "{others:?} {parted:?}");
}

#[test]
fn states_that_no_call_wrote_are_of_all_kinds() {
    let mut rng = Rng::new(0xb28);
    // Of slots: length fields 0 to 5, 6, 7 to 15, 16, 1,788 and above; a summary with bytes behind
    // it; no summary, with opened records that count; of another mode; opened far above. Of states:
    // an excess that is small in 32 bits.
    let (mut seen, mut wraps) = ([0; 9], 0);
    for _ in 0..400 {
        let (mode, state) = state(&mut rng);
        let excess: u64 = held(&state).into_iter().map(|held| opened(held).saturating_sub(10_000)).sum();
        wraps += usize::from(excess >> 32 > 0 && excess % (1 << 32) <= 20_000);
        for (slot, held) in state.chunks(SLOT).zip(held(&state)) {
            let length = usize::from(slot[0]) + 256 * usize::from(slot[1]);
            let summary = decode(held);
            add(
                &mut seen,
                [
                    length < 6,
                    length == 6,
                    (7..16).contains(&length),
                    length == 16,
                    length >= SLOT,
                    summary.is_some() && slot[held.len()..].iter().any(|&byte| byte != 0),
                    summary.is_none() && opened(held) > 10_000,
                    summary.is_some_and(|summary| summary.mode != mode),
                    opened(held) > 1 << 31,
                ],
            );
        }
    }
    assert!(seen.iter().all(|&count| count > 20) && wraps > 10, "{seen:?} {wraps}");
}

/// What a call on a state is told.
fn make(state: &mut [u8; FARMS_STATE], call: &Call) -> Told {
    match call {
        Call::Send { farm, summary } => farms_send(state, *farm, summary).map(|()| Vec::new()),
        Call::EndOfDay { farm, capacity } => farms_end_of_day(state, *farm, *capacity),
    }
}

#[test]
fn calls_on_such_states_get_5_for_the_slot_and_come_to_the_limit() {
    let mut rng = Rng::new(0xb29);
    // 5 for what the slot holds, and for what is sent; 6; 21 with a slot that is no summary, and by
    // a farm within its own; taken with all in common drawn.
    let mut seen = [0; 6];
    for _ in 0..600 {
        let (mode, mut state) = state(&mut rng);
        let served = farms(&mut rng);
        for call in calls(&mut rng, mode, &served, state, 12) {
            let before = state;
            let told = make(&mut state, &call);
            if let Call::Send { farm: farm @ 0..=7, summary } = &call {
                let slots = held(&before);
                let own = decode(slots[*farm as usize]);
                let few = opened(slots[*farm as usize]) + opened(summary) <= 10_000;
                let drawn: u64 = held(&state).into_iter().map(|held| opened(held).saturating_sub(10_000)).sum();
                add(
                    &mut seen,
                    [
                        told == Err(5) && own.is_none(),
                        told == Err(5) && own.is_some(),
                        told == Err(6),
                        told == Err(21) && slots.iter().any(|held| decode(held).is_none()),
                        told == Err(21) && few,
                        told.is_ok() && drawn == 20_000,
                    ],
                );
            }
        }
    }
    assert!(seen.iter().all(|&count| count > 30), "{seen:?}");
}
