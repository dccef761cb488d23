//! Mode 5, a drop taken at its value: the proved library against the reference, every byte of every buffer. What L3 says sentence by
//! sentence is put to the library by `document_02`.

use compare::agree::{self, every_call_on_row as row_agrees};
use compare::calls;
use reference::gen::logs::longest_plan;
use reference::gen::raw::{all_of, blank, close, in_mode, nothing, open, run, short, Hill, MODES};
use reference::gen::{forged, Rng};
use reference::layout::encode;
use reference::mode::Mode;
use reference::record::{encode_all, Record};

const LIMIT: i32 = 1_000_000_000;

/// A log, and its chunks for every cut into two.
fn every_cut_agrees(log: &[Vec<u8>]) {
    agree::day(&log.concat());
    for cut in 0..=log.len() {
        let chunks = [log[..cut].concat(), log[cut..].concat()];
        let sent = chunks.map(|chunk| {
            agree::summarise(&chunk, 5);
            calls::summarise(&chunk, 5, 1788).expect("readable")
        });
        row_agrees(&sent);
    }
}

#[test]
fn every_side_of_floor_and_ceiling() {
    let grams = [-LIMIT, -4, 0, 4, LIMIT];
    for value in grams {
        for floor in grams {
            for ceiling in grams.into_iter().filter(|&ceiling| floor <= ceiling) {
                let opened = open(1, value, floor, ceiling);
                // It holds nothing, and then one record, within one whose limits count.
                every_cut_agrees(&[open(0, 1, -3, 6), opened.clone(), close(1), close(0)]);
                for held in grams {
                    every_cut_agrees(&[open(0, 1, -3, 6), opened.clone(), short(2, held), close(2), close(1), close(0)]);
                }
            }
        }
    }
}

/// Three hills down to level 3, up to 1 and 2, and to the end, with a value at each place that can have one: nine in all. Each record
/// is bound, if it is, on another side.
fn three_hills(mode: u16, values: [i64; 9]) -> [Vec<u8>; 3] {
    let [a, b, c, d, e, f, g, h, i] = values;
    let down = Hill { right: vec![(9, 0, 12, a), (-6, -2, 9, b), (5, 0, 4, c)], ..Hill::empty(mode, 0, 0, 3, 20) };
    let between = Hill { left: vec![d, e], middle: f, right: vec![(-8, -7, 3, g)], ..Hill::empty(mode, 3, 1, 2, 20) };
    let up = Hill { left: vec![h, i], ..Hill::empty(mode, 2, 0, 0, 20) };
    [down, between, up].map(|hill| hill.bytes())
}

#[test]
fn nothing_or_a_number_at_every_place() {
    for mode in [2, 5] {
        for which in 0..1 << 9 {
            let value = |place| if which >> place & 1 == 0 { nothing(mode) } else { [-1, 0, 2][place % 3] };
            let row = three_hills(mode, std::array::from_fn(value));
            assert!(row_agrees(&row).iter().all(|&answer| answer != -5));
            row_agrees(&row[..2]);
            row_agrees(&row[1..]);
        }
    }
}

#[test]
fn minus_2_63_at_each_place_in_each_mode() {
    for mode in MODES {
        for place in 0..9 {
            let mut values = [0; 9];
            values[place] = i64::MIN;
            let row = three_hills(mode, values);
            // Nothing in modes 2 and 5; beyond the range in modes 1 and 4.
            let refused = row_agrees(&row).contains(&-5);
            assert_eq!(refused, in_mode(mode, [true, false, false, true]), "mode {mode}, place {place}");
            row_agrees(&row[..2]);
            row_agrees(&row[1..]);
            row.iter().for_each(|piece| {
                agree::finish(piece);
            });
        }
    }
}

#[test]
fn nothing_held_so_far_at_any_depth() {
    for levels in [1, 2, 3, 17, 63, 64] {
        let mut down = Hill::empty(5, 0, 0, levels, 200);
        for (place, record) in down.right.iter_mut().enumerate() {
            // Bound above, below, and not at all, in turns.
            (record.0, record.1, record.2) = [(5, 0, 4), (-5, -4, 9), (1, -LIMIT, LIMIT)][place % 3];
        }
        let up = Hill::empty(5, levels, 0, 0, 200);
        row_agrees(&[down.bytes(), up.bytes()]);
        for place in 0..usize::from(levels) {
            // A 0 at one level, on the left and on the right.
            let (mut held, mut added) = (down.clone(), up.clone());
            held.right[place].3 = 0;
            added.left[place] = 0;
            row_agrees(&[held.bytes(), up.bytes()]);
            row_agrees(&[down.bytes(), added.bytes()]);
        }
    }
}

#[test]
fn what_lies_between_is_nothing_or_a_number() {
    // Up to three hills at the level where two others meet, or blanks.
    let down = Hill { right: vec![(9, 0, 20, nothing(5)), (5, 0, 4, nothing(5))], ..Hill::empty(5, 0, 0, 2, 2) }.bytes();
    let up = Hill::empty(5, 2, 0, 0, 0).bytes();
    let flat: Vec<Vec<u8>> = [nothing(5), 0, 3, -7]
        .map(|middle| Hill { middle, ..Hill::empty(5, 2, 2, 2, 1) }.bytes())
        .into_iter()
        .chain([blank(5)])
        .collect();
    for count in 0..=3 {
        for between in all_of(&flat, count) {
            row_agrees(&[down.clone(), between, up.clone()]);
        }
    }
    // Nothing: 9 + 5. For numbers 0 to 4, and 9 more.
    assert_eq!(calls::runs(&[&down[..], &flat[0], &up].concat(), 38), Ok(run(5, &[14, 14, 9, 13])));
    for (between, figure) in flat.iter().zip([14, 13, 13, 9, 14]) {
        assert_eq!(calls::work(&[&down[..], between, &up].concat()), Ok((figure, 1, 2)));
    }
}

#[test]
fn mode_3_at_each_place_of_a_row() {
    let mut rng = Rng::new(0xd51);
    for round in 0..400 {
        let mode = Mode::ALL[round % 4];
        let count = 2 + rng.below(4);
        let row: Vec<Vec<u8>> = forged::neighbours(&mut rng, mode, count, 20).iter().map(encode).collect();
        for place in 0..count {
            let mut row = row.clone();
            row[place] = forged::out_of_use(&mut rng);
            assert!(row_agrees(&row).iter().all(|&answer| answer == -5));
            assert_eq!(agree::finish(&row[place]), [-5]);
            // Beside it one of another mode.
            let other = Mode::ALL[(round + 1) % 4];
            row[(place + 1) % count] = encode(&forged::summary(&mut rng, other));
            assert!(row_agrees(&row).iter().all(|&answer| answer == -5));
        }
    }
}

#[test]
fn runs_are_38_bytes_long() {
    assert_eq!((tulghimo::raw::LONGEST_RUNS, tulghimo::Mode::Eaten.number()), (125 * 38, 5));
    // The buffer that was long enough for 125 runs of 30 bytes is not any more.
    let summary = |chunk: &Vec<Record>| calls::summarise(&encode_all(chunk), 5, 1788).expect("readable");
    let row: Vec<u8> = longest_plan(&mut Rng::new(0xd52), 64).iter().flat_map(summary).collect();
    for capacity in [0, 3749, 3750, 4749] {
        assert_eq!(calls::runs(&row, capacity), Err(12));
    }
    assert_eq!(calls::runs(&row, 4750).map(|runs| runs.len()), Ok(4750));
    assert_eq!(tulghimo::runs(&row).map(|runs| runs.len()), Ok(125));
}
