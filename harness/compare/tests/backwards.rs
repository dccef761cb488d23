//! Backwards through a run: the proved library against the reference, on runs that are good, damaged, nearly right, written for rows, and
//! on bytes without any order. What L6 says sentence by sentence, and its laws, are put to the library by `document_02`.

use compare::agree;
use reference::gen::raw::{run_length, MODES};
use reference::gen::runs::{any_run, any_y, figure, nearly_a_run};
use reference::gen::{damage, forged, logs, Rng};
use reference::layout::encode;
use reference::mode::Mode;
use reference::record::{encode_all, Record};
use std::collections::BTreeMap;
use tulghimo::raw;

/// How often each answer came: 0, -15, -16 and -17.
#[derive(Default)]
struct Seen(BTreeMap<i64, usize>);

impl Seen {
    /// A run and a y, on which both must agree.
    fn ask(&mut self, run: &[u8], y: i64) {
        for answer in agree::backwards(run, y) {
            *self.0.entry(answer).or_default() += 1;
        }
    }

    /// Just these answers came, from the lowest up, each as often as said at the least.
    fn came(&self, answers: &[i64], least: usize) {
        assert_eq!(self.0.keys().copied().collect::<Vec<_>>(), answers, "{:?}", self.0);
        assert!(self.0.values().all(|&count| count >= least), "{:?}", self.0);
    }
}

/// The modes that have a way back.
fn has_way_back(mode: u16) -> bool {
    mode == 1 || mode == 4
}

#[test]
fn good_runs_with_any_y() {
    let mut rng = Rng::new(0xbac0);
    for mode in MODES {
        let (mut any, mut in_range) = (Seen::default(), Seen::default());
        for _ in 0..5000 {
            let run = any_run(&mut rng, mode);
            any.ask(&run, any_y(&mut rng));
            in_range.ask(&run, figure(&mut rng, mode));
        }
        any.came(if has_way_back(mode) { &[-17, 0] } else { &[-16] }, 500);
        in_range.came(if has_way_back(mode) { &[0] } else { &[-16] }, 5000);
    }
}

#[test]
fn every_bit_flip_of_good_runs() {
    let mut rng = Rng::new(0xbac1);
    for mode in MODES {
        let mut seen = Seen::default();
        for _ in 0..200 {
            let mut run = any_run(&mut rng, mode);
            for bit in 0..8 * run.len() {
                run[bit / 8] ^= 1 << (bit % 8);
                seen.ask(&run, figure(&mut rng, mode));
                seen.ask(&run, any_y(&mut rng));
                run[bit / 8] ^= 1 << (bit % 8);
            }
        }
        seen.came(if has_way_back(mode) { &[-17, -15, 0] } else { &[-16, -15] }, 500);
    }
}

#[test]
fn good_runs_under_every_mode() {
    // The numbers of one mode, and as many bytes as it has, under the number of another.
    let mut rng = Rng::new(0xbac2);
    let mut seen = Seen::default();
    for _ in 0..500 {
        for mode in MODES {
            for number in (0..=6).chain([256 + mode, 0x8000 + mode]) {
                let mut run = any_run(&mut rng, mode);
                run[4..6].copy_from_slice(&number.to_le_bytes());
                seen.ask(&run, any_y(&mut rng));
            }
        }
    }
    seen.came(&[-17, -16, -15, 0], 400);
}

#[test]
fn nearly_runs_and_damaged_ones() {
    let mut rng = Rng::new(0xbac3);
    let (mut nearly, mut damaged) = (Seen::default(), Seen::default());
    for round in 0..20_000 {
        let mode = MODES[round % 4];
        let run = any_run(&mut rng, mode);
        let bytes = damage::damage(&mut rng, &run);
        damaged.ask(&bytes, any_y(&mut rng));
        damaged.ask(&bytes, figure(&mut rng, mode));
        nearly.ask(&nearly_a_run(&mut rng), any_y(&mut rng));
    }
    nearly.came(&[-17, -16, -15, 0], 500);
    damaged.came(&[-17, -16, -15, 0], 500);
}

#[test]
fn bytes_without_any_order() {
    let mut rng = Rng::new(0xbac4);
    let mut seen = Seen::default();
    for round in 0..20_000 {
        seen.ask(&damage::noise(&mut rng, 80), any_y(&mut rng));
        // Behind the head of a run.
        let mut run = any_run(&mut rng, MODES[round % 4]);
        run[6..].fill_with(|| rng.bits() as u8);
        seen.ask(&run, any_y(&mut rng));
    }
    // 65,566 is 30 if its high bits are left out.
    for length in [65_536, 65_566, 65_574] {
        let mut run = any_run(&mut rng, 1);
        run.resize(length, 0);
        seen.ask(&run, 0);
    }
    seen.came(&[-15], 40_003);
}

#[test]
fn slices_of_every_length_at_every_address() {
    let mut rng = Rng::new(0xbac5);
    for mode in MODES {
        let mut seen = Seen::default();
        for before in 0..16 {
            // Other bytes stand before the slice, and the rest of the run or zeros after it.
            let lent = [vec![0xa5; before], any_run(&mut rng, mode), vec![0; 50]].concat();
            for end in before..lent.len() {
                seen.ask(&lent[before..end], figure(&mut rng, mode));
            }
        }
        seen.came(if has_way_back(mode) { &[-15, 0] } else { &[-16, -15] }, 16);
    }
}

/// The runs that the library writes for a row; none where it refuses the row.
fn written(row: &[u8], mode: Mode) -> Vec<Vec<u8>> {
    let mut out = [0; raw::LONGEST_RUNS];
    let length = usize::try_from(raw::runs(row, &mut out)).unwrap_or(0);
    out[..length].chunks(run_length(mode.number() as u16)).map(<[u8]>::to_vec).collect()
}

/// The runs of a random row of a mode: of a log that is cut, or of one that no chunk makes.
fn runs_of_a_row(rng: &mut Rng, mode: Mode) -> Vec<Vec<u8>> {
    let count = 2 + rng.below(8);
    let row: Vec<u8> = if rng.one_in(2) {
        forged::row(rng, mode, count).iter().flat_map(encode).collect()
    } else {
        let log = logs::any_log(rng, 60);
        let summary = |chunk: &Vec<Record>| tulghimo::summarise(&encode_all(chunk), of_library(mode)).expect("readable");
        logs::cut(rng, &log, count).iter().flat_map(summary).collect()
    };
    written(&row, mode)
}

/// The same mode with the library's type.
fn of_library(mode: Mode) -> tulghimo::Mode {
    mode.number().try_into().expect("a mode in use")
}

#[test]
fn runs_that_were_written() {
    let mut rng = Rng::new(0xbac6);
    let mut damaged = Seen::default();
    for mode in Mode::ALL {
        let number = mode.number() as u16;
        let (mut in_range, mut any) = (Seen::default(), Seen::default());
        let runs: Vec<Vec<u8>> = (0..1000).flat_map(|_| runs_of_a_row(&mut rng, mode)).collect();
        for run in runs {
            in_range.ask(&run, figure(&mut rng, number));
            any.ask(&run, any_y(&mut rng));
            damaged.ask(&damage::damage(&mut rng, &run), any_y(&mut rng));
        }
        // Never 15.
        in_range.came(if has_way_back(number) { &[0] } else { &[-16] }, 1000);
        any.came(if has_way_back(number) { &[-17, 0] } else { &[-16] }, 500);
    }
    damaged.came(&[-17, -16, -15, 0], 200);
}

#[test]
fn x_is_as_it_was_under_a_refusal() {
    let mut rng = Rng::new(0xbac7);
    let mut refused = BTreeMap::new();
    for round in 0..4000 {
        let run = if round % 2 == 0 { any_run(&mut rng, MODES[round / 2 % 4]) } else { nearly_a_run(&mut rng) };
        let y = any_y(&mut rng);
        // What is lent may be anything, y and the right x too.
        for before in [0, -1, y, i64::MIN, i64::MAX, reference::calls::backwards(&run, y).unwrap_or(1)] {
            let mut x = [before];
            match raw::backwards(&run, y, &mut x) {
                0 => assert_eq!(reference::calls::backwards(&run, y), Ok(x[0])),
                answer => {
                    assert_eq!(x, [before], "{answer}");
                    *refused.entry(answer).or_insert(0) += 1;
                }
            }
        }
    }
    assert!([-15, -16, -17].iter().all(|answer| refused[answer] > 500), "{refused:?}");
}
