//! Calls on the state of a station with eight farms: runs that start fresh, pairs of them in which
//! one farm's calls are the same, and states that no call wrote.

use super::damage::{damage, noise};
use super::forged::{self, level, levels_between, out_of_use, past_a_byte};
use super::logs::{any_log, cut};
use super::Rng;
use crate::calls::{farms_end_of_day, farms_send};
use crate::farms::{blank, fresh, held, opened, FARMS, FARMS_STATE, IN_COMMON, OWN, SLOT};
use crate::layout::{decode, encode};
use crate::ledger::Call;
use crate::mode::Mode;
use crate::summary::{summary_of, Case, Spoilt, Summary};

/// A mode, and calls on a state that is fresh in it.
#[derive(Clone, Debug)]
pub struct Run {
    pub mode: Mode,
    pub calls: Vec<Call>,
}

/// Two runs of one mode in which a farm's calls are the same, in the same order.
#[derive(Clone, Debug)]
pub struct TwoRuns {
    pub farm: u32,
    pub runs: [Run; 2],
}

/// A run of so many calls.
pub fn run(rng: &mut Rng, count: usize) -> Run {
    let mode = rng.pick(&Mode::ALL);
    let served = farms(rng);
    Run { mode, calls: calls(rng, mode, &served, fresh(mode), count) }
}

/// So many calls of the farms served on a state, each drawn by what those before it left.
pub fn calls(rng: &mut Rng, mode: Mode, served: &[u32], state: [u8; FARMS_STATE], count: usize) -> Vec<Call> {
    let mut station = Station::new(rng, mode, served, state);
    (0..count).map(|_| station.any_call(rng)).collect()
}

/// Two runs: one of so many calls, and one with the calls of one of its farms, between which others
/// make theirs, or none does.
pub fn two_runs(rng: &mut Rng, count: usize) -> TwoRuns {
    let first = run(rng, count);
    let farm = first.calls[rng.below(count)].farm();
    let others: Vec<u32> = farms(rng).into_iter().filter(|&other| other != farm).collect();
    let most_between = if others.is_empty() { 0 } else { rng.pick(&[0, 1, 3, 6]) };
    let mut station = Station::new(rng, first.mode, &others, fresh(first.mode));
    let mut calls = Vec::new();
    for own in first.calls.iter().filter(|call| call.farm() == farm) {
        for _ in 0..rng.below(most_between + 1) {
            // A farm that is not there may be drawn here too.
            calls.extend(Some(station.any_call(rng)).filter(|between| between.farm() != farm));
        }
        station.make(own);
        calls.push(own.clone());
    }
    let second = Run { mode: first.mode, calls };
    TwoRuns { farm, runs: [first, second] }
}

/// The farms that a station serves: one, a few or all.
pub fn farms(rng: &mut Rng) -> Vec<u32> {
    let count = rng.pick(&[1, 2, 2, 3, 3, FARMS, FARMS]);
    let mut served: Vec<u32> = (0..FARMS as u32).collect();
    while served.len() > count {
        served.remove(rng.below(served.len()));
    }
    served
}

/// A farm above 7, often one that is served in its low 3, 8, 16 or 31 bits.
fn not_there(rng: &mut Rng, served: u32) -> u32 {
    let any = rng.bits() as u32 | 8;
    rng.pick(&[8, 9, served + 8, served + (1 << 8), served + (1 << 16), served + (1 << 31), u32::MAX, any])
}

/// A state as the calls so far left it, and what is still to be sent of the chunks of each farm.
struct Station {
    mode: Mode,
    served: Vec<u32>,
    state: [u8; FARMS_STATE],
    chunks: Vec<Vec<Summary>>,
}

impl Station {
    fn new(rng: &mut Rng, mode: Mode, served: &[u32], state: [u8; FARMS_STATE]) -> Station {
        let chunks = (0..FARMS).map(|_| chunks(rng, mode)).collect();
        Station { mode, served: served.to_vec(), state, chunks }
    }

    /// A call of one of the farms served, now and then of one that is not there; it is made.
    fn any_call(&mut self, rng: &mut Rng) -> Call {
        let farm = rng.pick(&self.served);
        let call = if rng.one_in(6) {
            Call::EndOfDay { farm: self.named(rng, farm), capacity: self.capacity(rng, farm as usize) }
        } else {
            Call::Send { farm: self.named(rng, farm), summary: self.sent(rng, farm as usize) }
        };
        self.make(&call);
        call
    }

    /// The call's effect on the state.
    fn make(&mut self, call: &Call) {
        let _ = match call {
            Call::Send { farm, summary } => farms_send(&mut self.state, *farm, summary).err(),
            Call::EndOfDay { farm, capacity } => farms_end_of_day(&mut self.state, *farm, *capacity).err(),
        };
    }

    /// A farm served, or in its place one that is not there.
    fn named(&self, rng: &mut Rng, farm: u32) -> u32 {
        if rng.one_in(16) {
            not_there(rng, farm)
        } else {
            farm
        }
    }

    /// A buffer for what a farm has: just enough, one byte fewer or more, or of any length.
    fn capacity(&self, rng: &mut Rng, farm: usize) -> usize {
        let exact = held(&self.state)[farm].len();
        let any = rng.below(SLOT + 1);
        rng.pick(&[exact, exact, exact + 1, exact.saturating_sub(1), exact.saturating_sub(1), any, 0, SLOT])
    }

    /// What is sent for a farm: mostly a summary of the mode, often one that goes on where the farm
    /// is.
    fn sent(&mut self, rng: &mut Rng, farm: usize) -> Vec<u8> {
        let count = self.count(rng, farm);
        let next = self.next(rng, farm, count);
        let other = rng.pick(&Mode::ALL);
        match rng.below(20) {
            0 => damage(rng, &encode(&next)),
            1 => damage(rng, &encode(&blank(self.mode))),
            2 => match rng.below(3) {
                0 => noise(rng, 40),
                1 => out_of_use(rng),
                _ => past_a_byte(rng, self.mode),
            },
            3 => encode(&forged::summary(rng, other)),
            4 => encode(&blank(other)),
            5 => encode(&blank(self.mode)),
            6 => encode(&forged::summary(rng, self.mode)),
            _ => encode(&next),
        }
    }

    /// How many opened records to send for a farm: few, some, many, or as many as bring it to
    /// 10,000, to the most that it may have by what the others draw, to one more or one fewer, or to
    /// a share of what is in common.
    fn count(&self, rng: &mut Rng, farm: usize) -> u64 {
        let counts: Vec<u64> = held(&self.state).into_iter().map(opened).collect();
        let drawn = |other: usize| counts[other].saturating_sub(OWN);
        let others: u64 = (0..FARMS).filter(|&other| other != farm).map(drawn).sum();
        let most = OWN + IN_COMMON.saturating_sub(others);
        let edge = rng.pick(&[OWN, most]) - 1 + rng.pick(&[0, 1, 2]);
        let share = OWN + rng.below(3_000) as u64;
        let [edge, share] = [edge, share].map(|target| target.saturating_sub(counts[farm]));
        let (few, some, any) = (rng.below(50) as u64, rng.below(9_000) as u64, rng.below(100_001) as u64);
        rng.pick(&[edge, edge, edge, share, share, few, some, some, any])
    }

    /// A summary with about so many opened records, or the next of the farm's chunks.
    fn next(&mut self, rng: &mut Rng, farm: usize, count: u64) -> Summary {
        if rng.one_in(4) {
            if let Some(chunk) = self.chunks[farm].pop() {
                return chunk;
            }
        }
        let at = decode(held(&self.state)[farm]).and_then(|running| running.ends()).map(|(_, end, _)| end);
        let any = level(rng);
        let start = if rng.one_in(12) { any } else { at.unwrap_or(rng.pick(&[1, 2, 64])) };
        let end = rng.pick(&[start, start, 1, 2, any]);
        let case = if rng.one_in(12) {
            Case::Spoilt(Spoilt { fault: rng.pick(&[7, 8]), start, end, opened: count })
        } else {
            let levels = levels_between(rng, start, end);
            let opened = count.max(levels.fewest_opened());
            Case::Hill(forged::hill(rng, self.mode, &levels, opened))
        };
        Summary { mode: self.mode, case }
    }
}

/// The summaries of the chunks of a few days, the first of them last.
fn chunks(rng: &mut Rng, mode: Mode) -> Vec<Summary> {
    let mut summaries = Vec::new();
    for _ in 0..3 {
        let (log, count) = (any_log(rng, 12), 1 + rng.below(4));
        summaries.extend(cut(rng, &log, count).iter().map(|chunk| summary_of(mode, chunk)));
    }
    summaries.reverse();
    summaries
}

/// A mode, and a state that no call need have written: slots of that mode and of others, with bytes
/// behind their summaries, damaged ones, and such as hold anything.
pub fn state(rng: &mut Rng) -> (Mode, [u8; FARMS_STATE]) {
    let mode = rng.pick(&Mode::ALL);
    let harm = rng.pick(&[2, 4, 8]);
    let mut slots: Vec<Vec<u8>> = (0..FARMS).map(|_| any_slot(rng, mode, harm)).collect();
    if rng.one_in(10) {
        let (place, part) = (rng.below(FARMS - 1), rng.between(1 << 30, 3 << 30) as u32);
        // What is above 10,000 adds to 2^32, or to a few more.
        for (slot, above) in slots[place..].iter_mut().zip([part, part.wrapping_neg() + rng.below(3) as u32]) {
            slot[..2].copy_from_slice(&16u16.to_le_bytes());
            slot[12..16].copy_from_slice(&(above + OWN as u32).to_le_bytes());
        }
    }
    (mode, slots.concat().try_into().expect("eight slots"))
}

/// Lengths that a slot may claim: next to those of a blank, a spoilt summary and the longest hill,
/// and far above.
const LENGTHS: [u16; 16] = [0, 1, 5, 6, 7, 12, 15, 16, 17, 24, 1_787, 1_788, 1_789, 2_000, 32_768, 65_535];

/// Opened records that a slot may claim: next to the limits, and far above.
const OPENED: [u32; 10] = [0, 9_999, 10_000, 10_001, 29_999, 30_000, 30_001, 100_001, 1 << 31, u32::MAX];

/// A slot: mostly one with a summary of few opened records, or once in `harm` times one with
/// something wrong in it.
fn any_slot(rng: &mut Rng, mode: Mode, harm: usize) -> Vec<u8> {
    let mode = if rng.one_in(6) { rng.pick(&Mode::ALL) } else { mode };
    let levels = forged::levels(rng);
    let few = levels.fewest_opened() + rng.below(50) as u64;
    let opened = rng.pick(&[few, few, few, OWN, OWN + 1, OWN + 2_500]);
    let case = match rng.below(4) {
        0 => Case::Blank,
        1 => Case::Spoilt(Spoilt { fault: 8, start: levels.start, end: levels.end, opened }),
        _ => Case::Hill(forged::hill(rng, mode, &levels, opened)),
    };
    let mut bytes = encode(&Summary { mode, case });
    let rest = if rng.one_in(3) { rng.bits() as u8 } else { 0 };
    bytes.resize(SLOT, rest);
    if rng.one_in(harm) {
        match rng.below(4) {
            0 => bytes[..2].copy_from_slice(&rng.pick(&LENGTHS).to_le_bytes()),
            1 => bytes[12..16].copy_from_slice(&rng.pick(&OPENED).to_le_bytes()),
            2 => {
                bytes = damage(rng, &bytes[..60]);
                bytes.resize(SLOT, rest);
            }
            _ => {
                bytes = (0..SLOT).map(|_| rng.bits() as u8).collect();
                bytes[1] = rng.pick(&[0, 1, 4, 6, 255]);
            }
        }
    }
    bytes
}
