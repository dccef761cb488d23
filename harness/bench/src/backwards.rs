//! Backwards through a run, in the two modes that have a way back, on 48 different runs and outer figures of each.

use crate::chunks::many;
use crate::rows::micros;
use reference::backwards::FARTHEST;
use reference::gen::raw::run;
use std::hint::black_box;
use tulghimo::raw;

/// Runs of a mode, each with an outer figure. Every one must be taken.
fn asked(mode: u16) -> Vec<(Vec<u8>, i64)> {
    let asked = many(|rng| match mode {
        1 => (run(1, &[rng.between(-FARTHEST, FARTHEST), 0, 0]), rng.between(-FARTHEST, FARTHEST)),
        _ => {
            let [m, q, y] = [(); 3].map(|_| i64::from(rng.bits() as u32));
            (run(4, &[m | 1, q, 0]), y)
        }
    });
    assert!(asked.iter().all(|(run, y)| raw::backwards(run, *y, &mut [0]) == 0));
    asked
}

/// A table in nanoseconds for a call, a row for each mode.
pub fn bench() {
    println!("\n| Backwards, mode | ns a call |\n|---|---|");
    for mode in [1, 4] {
        let asked = asked(mode);
        let mut x = [0];
        let time = micros(|k| {
            let (run, y) = &asked[k];
            black_box(raw::backwards(black_box(run), *y, &mut x));
            black_box(x);
        });
        println!("| {mode} | {:.1} |", time * 1e3);
    }
}

#[cfg(test)]
mod tests {
    use super::*;
    use std::collections::HashSet;

    #[test]
    fn what_is_timed_is_taken_and_different() {
        for mode in [1, 4] {
            let asked = asked(mode);
            assert_eq!(asked.iter().collect::<HashSet<_>>().len(), 48, "mode {mode}");
        }
    }
}
