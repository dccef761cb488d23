//! Accepted summaries that no chunk makes: "All accepted bytes merge so".

use crate::rewrite::is_merge;
use reference::calls;
use reference::gen::damage::{damage, noise};
use reference::gen::forged::{neighbours, row, summary};
use reference::gen::Rng;
use reference::layout::{decode, encode, is_summary};
use reference::merge::merge;
use reference::mode::{stored, Held, Mode};
use reference::plan::plan_by_levels;
use reference::row::{fault, merge_row, pieces};
use reference::run::{figure_of_join, put_through, run_of};
use reference::summary::{finish, Case, Summary};
use reference::work::work;

#[test]
fn forged_summaries_are_accepted_and_read_back() {
    let mut rng = Rng::new(201);
    for _ in 0..3000 {
        let mode = rng.pick(&Mode::ALL);
        let forged = summary(&mut rng, mode);
        let bytes = encode(&forged);
        assert!(is_summary(&bytes), "{forged:?}");
        assert_eq!(decode(&bytes), Some(forged));
    }
}

#[test]
fn forged_summaries_reach_the_ends() {
    let mut rng = Rng::new(202);
    let (mut longest, mut at_bound, mut full, mut more) = (0, 0, 0, 0);
    for _ in 0..3000 {
        let forged = summary(&mut rng, Mode::Heaviest);
        longest = longest.max(encode(&forged).len());
        match &forged.case {
            Case::Hill(hill) => {
                full += usize::from(hill.opened == 100_000);
                let held = hill.right.iter().map(|unclosed| unclosed.held);
                let values = hill.left.iter().copied().chain([hill.middle]).chain(held);
                let sum: i64 = values.flatten().map(i64::abs).sum();
                let left_over = hill.opened as i64 - hill.right.len() as i64;
                at_bound += usize::from(sum > 0 && sum == 1_000_000_000 * left_over);
            }
            Case::Spoilt(spoilt) => more += usize::from(spoilt.opened == 100_001),
            Case::Blank => {}
        }
    }
    assert_eq!(longest, 1788);
    assert!(at_bound > 100 && full > 100 && more > 100);
}

#[test]
fn merging_is_the_rewriting_of_the_report() {
    let mut rng = Rng::new(203);
    let mut hills = 0;
    for _ in 0..4000 {
        let mode = rng.pick(&Mode::ALL);
        let two = neighbours(&mut rng, mode, 2, 1000);
        let merged = merge(&two[0], &two[1]);
        if let (Case::Hill(left), Case::Hill(right), Case::Hill(both)) = (&two[0].case, &two[1].case, &merged.case) {
            assert!(is_merge(mode, left, right, both), "{left:?} {right:?}");
            hills += 1;
        }
    }
    assert!(hills > 1000);
}

#[test]
fn merging_is_associative_and_accepted() {
    let mut rng = Rng::new(204);
    let mut hills = 0;
    for round in 0..4000 {
        let mode = rng.pick(&Mode::ALL);
        let stray = [4, 1000][round % 2];
        let three = neighbours(&mut rng, mode, 3, stray);
        let [a, b, c] = [&three[0], &three[1], &three[2]];
        let one_way = merge(&merge(a, b), c);
        assert_eq!(one_way, merge(a, &merge(b, c)));
        assert!(is_summary(&encode(&one_way)), "{three:?}");
        hills += usize::from(matches!(one_way.case, Case::Hill(_)));
    }
    assert!(hills > 1000);
}

#[test]
fn blank_is_the_unit() {
    let mut rng = Rng::new(205);
    for _ in 0..500 {
        let mode = rng.pick(&Mode::ALL);
        let forged = summary(&mut rng, mode);
        let case = Case::Blank;
        let blank = Summary { mode, case };
        assert_eq!(merge(&blank, &forged), forged);
        assert_eq!(merge(&forged, &blank), forged);
    }
}

#[test]
fn rows_with_faults_agree_with_their_merge() {
    let mut rng = Rng::new(206);
    let mut seen = [0; 12];
    for round in 0..6000 {
        let mode = rng.pick(&Mode::ALL);
        let count = 2 + rng.below(6);
        let stray = [3, 30, 1000][round % 3];
        let row = neighbours(&mut rng, mode, count, stray);
        let number = finish(&merge_row(&row)).err();
        assert_eq!(fault(&row), number, "{row:?}");
        seen[usize::from(number.unwrap_or(0))] += 1;
    }
    assert!([7, 8, 9, 11].iter().all(|&number| seen[number] > 30), "{seen:?}");
}

/// Any x for a run: near 0, at the ends of what figures reach, or nothing.
fn any_x(rng: &mut Rng, mode: Mode) -> Held {
    let far = 100_000_000_000_000;
    let (near, any) = (rng.between(-50, 50), rng.between(-far, far));
    match mode {
        Mode::Stamp => {
            let any = rng.between(0, u32::MAX.into());
            Some(rng.pick(&[0, 1, u32::MAX.into(), any]))
        }
        Mode::Heaviest | Mode::Eaten if rng.one_in(5) => None,
        _ => Some(rng.pick(&[near, any, far, -far])),
    }
}

#[test]
fn work_runs_and_merge_agree_on_forged_rows() {
    let mut rng = Rng::new(207);
    for round in 0..3000 {
        let mode = rng.pick(&Mode::ALL);
        let most = if round % 60 == 0 { 64 } else { 9 };
        let count = 2 + rng.below(most - 1);
        let row = row(&mut rng, mode, count);
        assert_eq!(fault(&row), None);
        let worked = work(&row);
        assert_eq!(finish(&merge_row(&row)), Ok(worked.figure), "{row:?}");
        let lines = plan_by_levels(&row);
        assert!(lines.len() <= 2 * count - 3);
        for line in &lines {
            let run = run_of(&row, line);
            for _ in 0..4 {
                let x = any_x(&mut rng, mode);
                assert_eq!(put_through(&run, x), figure_of_join(&row, line, x));
            }
        }
        let bytes: Vec<u8> = row.iter().flat_map(encode).collect();
        assert_eq!(pieces(&bytes).len(), count);
        assert_eq!(calls::work(&bytes), Ok((stored(worked.figure), worked.joins as i64, worked.levels as i64)));
    }
}

#[test]
fn damaged_bytes_are_refused_or_read_exactly() {
    let mut rng = Rng::new(208);
    let (mut taken, mut refused) = (0, 0);
    for _ in 0..20_000 {
        let mode = rng.pick(&Mode::ALL);
        let bytes = encode(&summary(&mut rng, mode));
        let damaged = damage(&mut rng, &bytes);
        match decode(&damaged) {
            Some(read) => {
                assert_eq!(encode(&read), damaged);
                taken += 1;
            }
            None => refused += 1,
        }
    }
    assert!(taken > 1000 && refused > 1000, "{taken} {refused}");
}

#[test]
fn noise_is_cut_without_loss_and_refused() {
    let mut rng = Rng::new(209);
    for _ in 0..5000 {
        let bytes = noise(&mut rng, 40);
        assert_eq!(pieces(&bytes).concat(), bytes);
        assert!(matches!(calls::work(&bytes), Err(4 | 5)));
    }
}
