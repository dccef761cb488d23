//! "Plan and runs": the work along a plan.

use crate::mode::{combine, Held};
use crate::plan::{plan_by_levels, Line};
use crate::run::{put_through, run_of};
use crate::summary::{Case, Summary};

/// "It gives the figure, the joins used (its lines) and the number of levels
/// folded".
#[derive(Clone, Copy, Debug, PartialEq, Eq)]
pub struct Work {
    pub figure: Held,
    pub joins: usize,
    pub levels: usize,
}

/// "Working along a plan takes its lines in order and puts each line's x through its
/// run." Asked of a row that has no fault 7 to 11.
pub fn work(row: &[Summary]) -> Work {
    let lines = plan_by_levels(row);
    let mut outcomes: Vec<i64> = Vec::new();
    for line in &lines {
        let x = inner_figure(row, &lines, &outcomes, line);
        outcomes.push(put_through(&run_of(row, line), x));
    }
    Work {
        // "The last outcome is the figure; with no line, the middle value of the one
        // hill is."
        figure: match outcomes.last() {
            Some(&outcome) => Some(outcome),
            None => middle_of_one_hill(row),
        },
        joins: lines.len(),
        levels: levels_folded(&lines),
    }
}

/// "That x combines the middle values of the hills between i and j whose peak is
/// highest + 1 with the outcomes of the earlier lines from i to j whose lowest is
/// highest + 1."
///
/// The earlier lines are those that have an outcome already; "from i to j" are those
/// with both ends within i and j, where either end may be i or j itself.
fn inner_figure(row: &[Summary], lines: &[Line], outcomes: &[i64], line: &Line) -> Held {
    let mut parts: Vec<Held> = Vec::new();
    for summary in &row[line.i + 1..line.j] {
        if let Case::Hill(hill) = &summary.case {
            if hill.peak == line.highest + 1 {
                parts.push(hill.middle);
            }
        }
    }
    for (earlier, &outcome) in lines.iter().zip(outcomes) {
        let from_i_to_j = line.i <= earlier.i && earlier.j <= line.j;
        if from_i_to_j && earlier.lowest == line.highest + 1 {
            parts.push(Some(outcome));
        }
    }
    combine(row[line.i].mode, &parts)
}

/// A row with no fault and no line has one hill; the rest is blank.
fn middle_of_one_hill(row: &[Summary]) -> Held {
    row.iter()
        .find_map(|summary| match &summary.case {
            Case::Hill(hill) => Some(hill.middle),
            _ => None,
        })
        .expect("a hill")
}

/// "the sum of highest - lowest + 1 over the plan"
pub fn levels_folded(lines: &[Line]) -> usize {
    lines.iter().map(|line| line.highest - line.lowest + 1).sum()
}
