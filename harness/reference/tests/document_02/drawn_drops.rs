//! The generated logs and summaries reach every side of mode 5.

use reference::calls::finish;
use reference::gen::forged::{out_of_use, row, summary};
use reference::gen::logs::any_log;
use reference::gen::Rng;
use reference::layout::{decode, is_summary};
use reference::log::{held, opens};
use reference::mode::{Held, Mode};
use reference::plan::plan_by_levels;
use reference::record::Record;
use reference::run::{run_of, Run};
use reference::summary::Case;
use reference::tree::{figure_by_holding, open_at};

/// Where the value of a record with what it holds lies: below its floor, above its
/// ceiling, or neither.
fn side(log: &[Record], place: usize) -> usize {
    let record = open_at(log, place);
    let sum: i64 = held(log, place).into_iter().map(|later| figure_by_holding(Mode::Eaten, log, later)).sum();
    let total = record.value + sum;
    if total < record.floor {
        0
    } else {
        1 + usize::from(total > record.ceiling)
    }
}

#[test]
fn drops_and_holders_lie_on_every_side_of_their_limits() {
    let mut rng = Rng::new(0x321);
    let mut seen = [[0; 3]; 2];
    for _ in 0..300 {
        let log = any_log(&mut rng, 40);
        for place in opens(&log) {
            let holds = !held(&log, place).is_empty();
            seen[usize::from(holds)][side(&log, place)] += 1;
        }
    }
    assert!(seen.iter().flatten().all(|&count| count > 200), "{seen:?}");
}

#[test]
fn forged_hills_hold_nothing_at_any_place_and_everywhere() {
    let mut rng = Rng::new(0x322);
    // On the left, in the middle, held so far; and at all places of a hill with two levels and
    // more on both sides.
    let mut seen = [0; 4];
    for _ in 0..2000 {
        let Case::Hill(hill) = summary(&mut rng, Mode::Eaten).case else { continue };
        let (left, middle) = (&hill.left, hill.middle);
        let held: Vec<Held> = hill.right.iter().map(|unclosed| unclosed.held).collect();
        let all = left.iter().chain(&held).chain([&middle]).all(Option::is_none);
        let both_sides = left.len() > 1 && held.len() > 1;
        let found = [left.contains(&None), middle.is_none(), held.contains(&None), all && both_sides];
        seen.iter_mut().zip(found).for_each(|(count, found)| *count += usize::from(found));
    }
    assert!(seen[..3].iter().all(|&count| count > 500) && seen[3] > 50, "{seen:?}");
}

#[test]
fn summaries_of_mode_3_want_nothing_but_a_mode_in_use() {
    let mut rng = Rng::new(0x323);
    let mut taken = [0; 2];
    for _ in 0..500 {
        let mut bytes = out_of_use(&mut rng);
        assert!(!is_summary(&bytes) && decode(&bytes).is_none());
        assert_eq!(finish(&bytes), Err(5));
        for (mode, taken) in [5, 1].into_iter().zip(&mut taken) {
            bytes[4] = mode;
            *taken += usize::from(is_summary(&bytes));
        }
    }
    assert!(taken.iter().all(|&count| count > 200), "{taken:?}");
}

#[test]
fn forged_rows_have_runs_whose_z_is_outside_l_and_h() {
    let mut rng = Rng::new(0x324);
    let (mut above, mut below) = (0, 0);
    for _ in 0..2000 {
        let row = row(&mut rng, Mode::Eaten, 4);
        for line in plan_by_levels(&row) {
            let Run::Eaten { z, l, h, .. } = run_of(&row, &line) else { panic!("a run of mode 5") };
            above += usize::from(z > h);
            below += usize::from(z < l);
        }
    }
    assert!(above > 40 && below > 40, "{above} {below}");
}
