//! Summaries and rows that question 5 accepts, most of which no chunk makes, and two kinds of
//! bytes that it must not.

use super::logs::{grams, VALUES};
use super::Rng;
use crate::layout::encode;
use crate::mode::{nothing, Grams, Held, Mode};
use crate::record::GRAMS;
use crate::summary::{Case, Hill, Spoilt, Summary, Unclosed};

/// Start, peak and end of a hill.
#[derive(Clone, Copy, Debug, PartialEq, Eq)]
pub struct Levels {
    pub start: usize,
    pub peak: usize,
    pub end: usize,
}

impl Levels {
    /// The fewest records that a hill of these levels can have opened: those left
    /// unclosed, and one at least if it is flat.
    pub fn fewest_opened(&self) -> u64 {
        let unclosed = (self.end - self.peak) as u64;
        if self.start == self.peak && self.peak == self.end {
            1
        } else {
            unclosed
        }
    }
}

/// A level from 0 to 64, often near an end of the range.
pub fn level(rng: &mut Rng) -> usize {
    let any = rng.below(65);
    rng.pick(&[0, 1, 2, 3, 63, 64, any, any])
}

/// Any levels that question 5 accepts.
pub fn levels(rng: &mut Rng) -> Levels {
    let (start, end) = (level(rng), level(rng));
    levels_between(rng, start, end)
}

/// Levels from a start to an end: the peak is 0 only where one of them is.
pub fn levels_between(rng: &mut Rng, start: usize, end: usize) -> Levels {
    let most = start.min(end);
    let peak = if most == 0 {
        0
    } else {
        let any = 1 + rng.below(most);
        rng.pick(&[1, most, any])
    };
    Levels { start, peak, end }
}

/// A number of opened records for a hill: the fewest, one more, a few, or 100,000.
pub fn opened(rng: &mut Rng, levels: &Levels) -> u64 {
    let fewest = levels.fewest_opened();
    let few = fewest + rng.below(50) as u64;
    let any = fewest + rng.below(100_001 - fewest as usize) as u64;
    rng.pick(&[fewest, fewest + 1, few, few, any, 99_999, 100_000])
}

/// A hill with these levels and as many opened records.
pub fn hill(rng: &mut Rng, mode: Mode, levels: &Levels, opened: u64) -> Hill {
    let Levels { start, peak, end } = *levels;
    let mut values = values(rng, mode, levels, opened).into_iter();
    let mut next = || values.next().expect("a value for each place");
    let left = (peak..start).map(|_| next()).collect();
    let middle = next();
    let right = (peak..end).map(|_| Unclosed { record: record(rng), held: next() }).collect();
    Hill { start, peak, end, opened, left, middle, right }
}

/// A hill as of [`hill`]; in a quarter of the cases nothing is held anywhere in it.
fn any_hill(rng: &mut Rng, mode: Mode, levels: &Levels, opened: u64) -> Hill {
    let mut drawn = hill(rng, mode, levels, opened);
    if rng.one_in(4) {
        drawn.left.fill(nothing(mode));
        drawn.middle = nothing(mode);
        drawn.right.iter_mut().for_each(|unclosed| unclosed.held = nothing(mode));
    }
    drawn
}

/// The value, floor and ceiling of a readable record.
fn record(rng: &mut Rng) -> Grams {
    let values = rng.pick(&VALUES);
    let (one, other) = (grams(rng, values), grams(rng, values));
    Grams { value: grams(rng, values), floor: one.min(other), ceiling: one.max(other) }
}

/// The 64-bit values of a hill: left, middle, held. In modes 1, 2 and 5 their absolute
/// values are what 10^9 × opened leaves over, all of it in a third of the cases. The
/// middle is nothing where it must be.
fn values(rng: &mut Rng, mode: Mode, levels: &Levels, opened: u64) -> Vec<Held> {
    let Levels { start, peak, end } = *levels;
    let middle = start - peak;
    let count = middle + 1 + (end - peak);
    let must_be_nothing = |place: usize| place == middle && peak == 0 && start + end > 0;
    let mut grams_left = GRAMS * (opened as i64 - (end - peak) as i64);
    let style = rng.below(3);
    let richest = rng.below(count);
    let mut values = vec![nothing(mode); count];
    for (place, value) in values.iter_mut().enumerate() {
        if !must_be_nothing(place) {
            *value = value_within(rng, mode, &mut grams_left, style);
        }
    }
    if style == 0 && mode != Mode::Stamp && !must_be_nothing(richest) {
        let value = values[richest].unwrap_or(0);
        let sign = if value < 0 { -1 } else { 1 };
        values[richest] = Some(value + sign * grams_left);
    }
    values
}

/// One value, taken off the grams that are left in modes 1, 2 and 5.
fn value_within(rng: &mut Rng, mode: Mode, grams_left: &mut i64, style: usize) -> Held {
    if mode == Mode::Stamp {
        let any = rng.between(0, u32::MAX.into());
        return Some(rng.pick(&[0, 1, u32::MAX.into(), any, any]));
    }
    if rng.one_in(4) {
        return nothing(mode);
    }
    let most = if style == 1 { (*grams_left).min(30) } else { *grams_left / rng.pick(&[1, 2, 10, 100]) };
    let value = rng.between(-most, most);
    *grams_left -= value.abs();
    Some(value)
}

/// A spoilt summary that question 5 accepts.
pub fn spoilt(rng: &mut Rng, start: usize, end: usize) -> Spoilt {
    let fault = rng.pick(&[7, 8, 9]);
    let any = rng.below(100_002) as u64;
    Spoilt { fault, start, end, opened: if fault == 9 { 100_001 } else { rng.pick(&[0, 1, 99_999, 100_000, 100_001, any]) } }
}

/// Any summary that question 5 accepts.
pub fn summary(rng: &mut Rng, mode: Mode) -> Summary {
    let levels = levels(rng);
    let case = match rng.below(8) {
        0 => Case::Blank,
        1 => Case::Spoilt(spoilt(rng, levels.start, levels.end)),
        _ => {
            let opened = opened(rng, &levels);
            Case::Hill(any_hill(rng, mode, &levels, opened))
        }
    };
    Summary { mode, case }
}

/// The bytes of a summary of mode 3, which is out of use: otherwise as one of mode 5, or
/// with nothing stored as 0.
pub fn out_of_use(rng: &mut Rng) -> Vec<u8> {
    let like = rng.pick(&[Mode::Eaten, Mode::Net]);
    let mut bytes = encode(&summary(rng, like));
    bytes[4] = 3;
    bytes
}

/// The bytes of a summary with a level that takes more than 8 bits, though its low byte is
/// a level: one level of a spoilt summary or a hill, or all of them by as much, which leaves
/// a hill as long as its levels say.
pub fn past_a_byte(rng: &mut Rng, mode: Mode) -> Vec<u8> {
    let levels = levels(rng);
    let (case, high_bytes) = if rng.one_in(3) {
        (Case::Spoilt(spoilt(rng, levels.start, levels.end)), &[9, 11][..])
    } else {
        let opened = opened(rng, &levels);
        (Case::Hill(any_hill(rng, mode, &levels, opened)), &[7, 9, 11][..])
    };
    let any = 1 + rng.below(255) as u8;
    let high = rng.pick(&[1, 255, any]);
    let only = rng.pick(high_bytes);
    let all = rng.one_in(2);
    let mut bytes = encode(&Summary { mode, case });
    for &at in high_bytes.iter().filter(|&&at| all || at == only) {
        bytes[at] = high;
    }
    bytes
}

/// Summaries that mostly meet: each starts where the one before it ends, but for one
/// in `stray`.
pub fn neighbours(rng: &mut Rng, mode: Mode, count: usize, stray: usize) -> Vec<Summary> {
    let mut row = Vec::new();
    let mut at = level(rng);
    for _ in 0..count {
        let start = if rng.one_in(stray) { level(rng) } else { at };
        let end = level(rng);
        let case = if rng.one_in(8) {
            Case::Blank
        } else if rng.one_in(stray) {
            Case::Spoilt(spoilt(rng, start, end))
        } else {
            let levels = levels_between(rng, start, end);
            let any = opened(rng, &levels);
            let few = levels.fewest_opened() + rng.below(9) as u64;
            let opened = rng.pick(&[any, few, few]);
            Case::Hill(any_hill(rng, mode, &levels, opened))
        };
        if case != Case::Blank {
            at = end;
        }
        row.push(Summary { mode, case });
    }
    row
}

/// A row of `count` summaries, 1 or more, without a fault 7 to 11: hills that begin
/// and end at level 0, meet above it, and have opened 100,000 records at most, with
/// blanks between. In a third of the cases exactly 100,000 are opened.
pub fn row(rng: &mut Rng, mode: Mode, count: usize) -> Vec<Summary> {
    let hills = 1 + rng.below(count);
    let shapes = row_levels(rng, hills);
    let fewest: u64 = shapes.iter().map(Levels::fewest_opened).sum();
    let mut spare = 100_000 - fewest;
    let full = rng.one_in(3);
    let richest = rng.below(hills);
    let mut opened: Vec<u64> = Vec::new();
    for levels in &shapes {
        let any = rng.below(spare as usize + 1) as u64;
        let extra = rng.pick(&[0, 1, any, any / 10]).min(spare);
        spare -= extra;
        opened.push(levels.fewest_opened() + extra);
    }
    if full {
        opened[richest] += spare;
    }
    let mut row: Vec<Summary> = Vec::new();
    for (levels, &opened) in shapes.iter().zip(&opened) {
        let case = Case::Hill(any_hill(rng, mode, levels, opened));
        row.push(Summary { mode, case });
    }
    while row.len() < count {
        let case = Case::Blank;
        row.insert(rng.below(row.len() + 1), Summary { mode, case });
    }
    row
}

/// Levels of hills that begin and end at level 0 and meet above it.
fn row_levels(rng: &mut Rng, hills: usize) -> Vec<Levels> {
    let highest = rng.pick(&[1, 2, 3, 4, 6, 64]);
    let mut meeting: Vec<usize> = (1..hills).map(|_| 1 + rng.below(highest)).collect();
    meeting.insert(0, 0);
    meeting.push(0);
    meeting.windows(2).map(|pair| levels_between(rng, pair[0], pair[1])).collect()
}
