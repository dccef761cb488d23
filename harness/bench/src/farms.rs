//! The calls of a valley station, on 48 different states in which each farm has a running summary, beside merging the same two
//! summaries. A send is a merge, and then the excess of all farms is looked at and the slot written.

use crate::chunks::{many, COUNT};
use crate::rows::{hill, micros, micros_on, LONGEST};
use reference::gen::forged::Levels;
use reference::mode::Mode;
use std::hint::black_box;
use tulghimo::raw::{self, FARMS_STATE, LONGEST_SUMMARY};

/// A summary of 80 bytes, as chunks of a farm's day have: from level 3 down to 1 and up to 3.
const SHORT: Levels = Levels { start: 3, peak: 1, end: 3 };

/// A state, the farm whose call is timed, its running summary and what is sent for it.
struct Station {
    state: [u8; FARMS_STATE],
    farm: u32,
    running: Vec<u8>,
    sent: Vec<u8>,
}

/// Stations whose summaries all have these levels.
fn stations(mode: Mode, levels: &Levels) -> Vec<Station> {
    let mut farm = 0;
    many(|rng| {
        farm = (farm + 1) % 8;
        let mut state = [0; FARMS_STATE];
        assert_eq!(raw::farms_fresh(mode.number(), &mut state), 0);
        let running: Vec<Vec<u8>> = (0..8).map(|_| hill(rng, mode, levels)).collect();
        for (farm, summary) in (0..).zip(&running) {
            assert_eq!(raw::farms_send(&mut state, farm, summary), 0);
        }
        Station { state, farm, running: running[farm as usize].clone(), sent: hill(rng, mode, levels) }
    })
}

/// A send, the merge of the same two summaries, and an end of day.
fn times(mode: Mode, levels: &Levels) -> [f64; 3] {
    let stations = stations(mode, levels);
    let mut states: Vec<[u8; FARMS_STATE]> = stations.iter().map(|station| station.state).collect();
    let ready = |states: &mut Vec<[u8; FARMS_STATE]>| {
        states.iter_mut().zip(&stations).for_each(|(state, station)| *state = station.state);
    };
    let mut out = [0; LONGEST_SUMMARY];
    let mut all_taken = true;
    let send = micros_on(&mut states, ready, |states, k| {
        all_taken &= raw::farms_send(&mut states[k], stations[k].farm, black_box(&stations[k].sent)) == 0;
    });
    let end = micros_on(&mut states, ready, |states, k| {
        all_taken &= raw::farms_end_of_day(&mut states[k], stations[k].farm, &mut out) > 6;
    });
    let merge = micros(|k| {
        all_taken &= raw::merge(black_box(&stations[k].running), black_box(&stations[k].sent), &mut out) > 6;
    });
    assert!(all_taken);
    [send, merge, end]
}

/// A state made fresh.
fn fresh_time(mode: Mode) -> f64 {
    let mut states = vec![[0; FARMS_STATE]; COUNT];
    micros(|k| {
        black_box(raw::farms_fresh(black_box(mode.number()), &mut states[k]));
    })
}

/// A table in microseconds, a row for each mode.
pub fn bench() {
    let calls = ["send", "merge", "end of day"];
    let head = |bytes: &str| calls.map(|call| format!("{call}, {bytes} bytes")).join(" | ");
    println!("\n| Valley station, mode, µs | fresh | {} | {} |\n|---|---|---|---|---|---|---|---|", head("80"), head("1,788"));
    for mode in Mode::ALL {
        let cells = [vec![fresh_time(mode)], times(mode, &SHORT).to_vec(), times(mode, &LONGEST).to_vec()].concat();
        println!("| {} | {} |", mode.number(), cells.iter().map(|micros| format!("{micros:.2}")).collect::<Vec<_>>().join(" | "));
    }
}

#[cfg(test)]
mod tests {
    use super::*;
    use std::collections::HashSet;

    #[test]
    fn what_is_timed_is_different_taken_and_as_long_as_said() {
        for mode in Mode::ALL {
            for (levels, length) in [(&SHORT, 80), (&LONGEST, 1_788)] {
                let stations = stations(mode, levels);
                assert_eq!(stations.iter().map(|station| &station.state).collect::<HashSet<_>>().len(), COUNT);
                assert_eq!(stations.iter().map(|station| station.farm).collect::<HashSet<_>>().len(), 8);
                for Station { mut state, farm, running, sent } in stations {
                    // What merging gives is what the farm is handed out.
                    let (mut merged, mut out) = ([0; LONGEST_SUMMARY], [0; LONGEST_SUMMARY]);
                    assert_eq!((running.len(), sent.len()), (length, length));
                    assert_eq!(raw::merge(&running, &sent, &mut merged), length as i64);
                    assert_eq!(raw::farms_send(&mut state, farm, &sent), 0);
                    assert_eq!(raw::farms_end_of_day(&mut state, farm, &mut out), length as i64);
                    assert_eq!(out, merged);
                }
            }
        }
    }
}
