//! "Summaries": merging two, for all accepted summaries, "even those that no chunk
//! makes".

use crate::log::MOST_OPENED;
use crate::mode::{combine, nothing, through, Held, Mode};
use crate::summary::{Case, Hill, Spoilt, Summary, Unclosed, MORE_OPENED};

/// Two summaries of one mode merged. "A blank adds nothing."
pub fn merge(left: &Summary, right: &Summary) -> Summary {
    let case = match (&left.case, &right.case) {
        (Case::Blank, _) => right.case.clone(),
        (_, Case::Blank) => left.case.clone(),
        _ => merge_records(left, right),
    };
    Summary { mode: left.mode, case }
}

/// "Of two that are not blank, if one is spoilt or the join has fault 7, 8 or 9,
/// the result is spoilt: the lowest of these faults, the left's start, the right's
/// end, opened added and cut to 100,001."
fn merge_records(left: &Summary, right: &Summary) -> Case {
    let (start, left_end, left_opened) = left.ends().expect("a record");
    let (right_start, end, right_opened) = right.ends().expect("a record");
    let opened = left_opened + right_opened;
    let faults = [own_fault(left), own_fault(right), join_fault(left_end, right_start, opened)];
    match (faults.into_iter().flatten().min(), &left.case, &right.case) {
        (None, Case::Hill(l), Case::Hill(r)) => Case::Hill(merge_hills(left.mode, l, r)),
        (Some(fault), _, _) => Case::Spoilt(Spoilt { fault, start, end, opened: opened.min(MORE_OPENED) }),
        _ => unreachable!("a spoilt summary has a fault, a blank one was left out"),
    }
}

/// The fault that a spoilt summary brings along.
fn own_fault(summary: &Summary) -> Option<u8> {
    match &summary.case {
        Case::Spoilt(spoilt) => Some(spoilt.fault),
        _ => None,
    }
}

/// The lowest of the faults 7 to 9 that come with joining: the records do not meet,
/// the level between them is 0, too many are opened.
pub fn join_fault(left_end: usize, right_start: usize, opened: u64) -> Option<u8> {
    if left_end != right_start {
        Some(7)
    } else if left_end == 0 {
        Some(8)
    } else if opened > MOST_OPENED {
        Some(9)
    } else {
        None
    }
}

/// Two hills that meet: the closed levels fold, "the outcome joins the level below",
/// which is the higher of the two peaks; all other levels come from one side alone.
fn merge_hills(mode: Mode, l: &Hill, r: &Hill) -> Hill {
    let peak = l.peak.min(r.peak);
    let outcome = close_common(mode, l, r);
    Hill {
        start: l.start,
        peak,
        end: r.end,
        opened: l.opened + r.opened,
        left: (peak + 1..=l.start).rev().map(|level| left_value(mode, l, r, level, outcome)).collect(),
        middle: middle_value(mode, l, r, outcome),
        right: (peak + 1..=r.end).map(|level| right_value(mode, l, r, level, outcome)).collect(),
    }
}

/// "It closes, deepest first, each unclosed record of the left that the right
/// closes: its held figures so far, what came from deeper and the right's value at
/// that level are combined, go through the record, and the outcome joins the level
/// below."
fn close_common(mode: Mode, l: &Hill, r: &Hill) -> Held {
    let mut from_deeper = nothing(mode);
    for level in (l.peak.max(r.peak) + 1..=l.end).rev() {
        let unclosed = l.unclosed_at(level);
        let held = combine(mode, &[unclosed.held, from_deeper, r.left_at(level)]);
        from_deeper = Some(through(mode, &unclosed.record, held));
    }
    from_deeper
}

/// A left value of the joined chunks. At the left's peak, if the right goes below
/// it, three things meet: the left's middle, the outcome, the right's left value.
fn left_value(mode: Mode, l: &Hill, r: &Hill, level: usize, outcome: Held) -> Held {
    if level > l.peak {
        l.left_at(level)
    } else if level == l.peak {
        combine(mode, &[l.middle, outcome, r.left_at(level)])
    } else {
        r.left_at(level)
    }
}

/// The middle value of the joined chunks: both middles and the outcome if the peaks
/// are level, else the middle of the side with the lower peak.
fn middle_value(mode: Mode, l: &Hill, r: &Hill, outcome: Held) -> Held {
    if l.peak == r.peak {
        combine(mode, &[l.middle, outcome, r.middle])
    } else if l.peak < r.peak {
        l.middle
    } else {
        r.middle
    }
}

/// An unclosed record of the joined chunks. At the right's peak, if the left goes
/// below it, the outcome and the right's middle add to what the record holds.
fn right_value(mode: Mode, l: &Hill, r: &Hill, level: usize, outcome: Held) -> Unclosed {
    if level > r.peak {
        r.unclosed_at(level)
    } else if level == r.peak {
        let unclosed = l.unclosed_at(level);
        Unclosed { record: unclosed.record, held: combine(mode, &[unclosed.held, outcome, r.middle]) }
    } else {
        l.unclosed_at(level)
    }
}
