//! "Plan and runs": the run of a join; in mode 5 that of document 02's L3.

use crate::bytes::put;
use crate::log::{closer, held, opens};
use crate::mode::{between, combine, modulo_2_32, stored, through, Held, Mode};
use crate::plan::Line;
use crate::record::Record;
use crate::summary::{Case, Hill, Summary};
use crate::tree::figure_by_holding;

/// A run's numbers, in each mode those that it has.
#[derive(Clone, Copy, Debug, PartialEq, Eq)]
pub enum Run {
    /// "Mode 1: (a,0,0), x + a."
    Net { a: i64 },
    /// "Mode 2: (z,A,B), z for nothing, else the greater of A and x + B."
    Heaviest { z: i64, a: Held, b: i64 },
    /// Mode 5: "z for nothing inside, then a, l, h": for a number "x + a held between l
    /// and h".
    Eaten { z: i64, a: i64, l: i64, h: i64 },
    /// "Mode 4: (m,q,0), m·x + q modulo 2^32"
    Stamp { m: i64, q: i64 },
}

/// The hill of a chunk that has a join.
fn hill_at(row: &[Summary], number: usize) -> &Hill {
    match &row[number].case {
        Case::Hill(hill) => hill,
        _ => panic!("a chunk that has a join is a hill"),
    }
}

/// The figures on the way at a level of a join, x aside: those held so far in i and
/// the left value of j.
fn beside(mode: Mode, i: &Hill, j: &Hill, level: usize) -> Held {
    combine(mode, &[i.unclosed_at(level).held, j.left_at(level)])
}

/// "the figure of its lowest-depth record as a function of x, the combined figures
/// of those records held directly by its highest-depth record that lie neither
/// wholly in i nor wholly in j"
pub fn figure_of_join(row: &[Summary], line: &Line, x: Held) -> i64 {
    let mode = row[line.i].mode;
    let (i, j) = (hill_at(row, line.i), hill_at(row, line.j));
    let figure_at = |depth: usize, held: Held| {
        let level = depth + 1;
        let all = combine(mode, &[held, beside(mode, i, j, level)]);
        through(mode, &i.unclosed_at(level).record, all)
    };
    let mut figure = figure_at(line.highest, x);
    for depth in (line.lowest..line.highest).rev() {
        figure = figure_at(depth, Some(figure));
    }
    figure
}

/// Further from 0 than any figure: at most 100,000 records are opened, of at most
/// 10^9 grams each, and question 5 holds stored values to the same sum, so that no
/// figure is beyond ±10^14.
const FAR: i64 = 1_000_000_000_000_000;

/// The run of a line of the plan of a row.
pub fn run_of(row: &[Summary], line: &Line) -> Run {
    let figure = |x: Held| figure_of_join(row, line, x);
    match row[line.i].mode {
        Mode::Net => Run::Net { a: figure(Some(0)) },
        Mode::Heaviest => {
            Run::Heaviest { z: figure(None), a: greatest_beside(row, line), b: values_down_to(row, line, line.highest) }
        }
        // "where a adds all values and combined figures on the way and l, h are the
        // ends of what it can give" for a number. z is neither: with nothing inside, the
        // innermost record may hold nothing and is then not bound.
        Mode::Eaten => {
            let (l, h) = (figure(Some(-FAR)), figure(Some(FAR)));
            Run::Eaten { z: figure(None), a: all_on_the_way(row, line), l, h }
        }
        Mode::Stamp => Run::Stamp { m: modulo_2_32(figure(Some(1)) - figure(Some(0))), q: figure(Some(0)) },
    }
}

/// The values of the join's records from its lowest depth to the given one, added.
fn values_down_to(row: &[Summary], line: &Line, depth: usize) -> i64 {
    let i = hill_at(row, line.i);
    (line.lowest..=depth).map(|depth| i.unclosed_at(depth + 1).record.value).sum()
}

/// Mode 2's A: the greatest figure of a line that leaves the join beside x, at any
/// of its levels; nothing where no other figure is on the way.
fn greatest_beside(row: &[Summary], line: &Line) -> Held {
    let (i, j) = (hill_at(row, line.i), hill_at(row, line.j));
    (line.lowest..=line.highest)
        .filter_map(|depth| {
            let figure = beside(Mode::Heaviest, i, j, depth + 1)?;
            Some(values_down_to(row, line, depth) + figure)
        })
        .max()
}

/// Mode 5's a: "all values and combined figures on the way" added.
fn all_on_the_way(row: &[Summary], line: &Line) -> i64 {
    let (i, j) = (hill_at(row, line.i), hill_at(row, line.j));
    let figures: i64 = (line.lowest..=line.highest).filter_map(|depth| beside(Mode::Eaten, i, j, depth + 1)).sum();
    values_down_to(row, line, line.highest) + figures
}

/// A figure put through a run, by its numbers alone.
pub fn put_through(run: &Run, x: Held) -> i64 {
    match *run {
        Run::Net { a } => x.unwrap_or(0) + a,
        Run::Heaviest { z, a, b } => match (x, a) {
            (None, _) => z,
            (Some(x), None) => x + b,
            (Some(x), Some(a)) => a.max(x + b),
        },
        Run::Eaten { z, a, l, h } => match x {
            None => z,
            Some(x) => between(x + a, l, h),
        },
        Run::Stamp { m, q } => {
            let product = i128::from(m) * i128::from(x.unwrap_or(0));
            modulo_2_32((product.rem_euclid(1 << 32)) as i64 + q)
        }
    }
}

/// The x of a line of a cut log's plan and the figure that its run must give there, both
/// from the records of the uncut log.
pub fn join_by_records(mode: Mode, chunks: &[Vec<Record>], line: &Line) -> (Held, i64) {
    let log = chunks.concat();
    let mut chunk_of = Vec::new();
    for (number, chunk) in chunks.iter().enumerate() {
        chunk_of.extend(vec![number; chunk.len()]);
    }
    let lies_in = |place: usize| (chunk_of[place], chunk_of[closer(&log, place).unwrap()]);
    let record_at = |depth: usize| {
        opens(&log).into_iter().find(|&place| log[place].depth() == depth && lies_in(place) == (line.i, line.j)).unwrap()
    };
    // "those records held directly by its highest-depth record that lie neither wholly
    // in i nor wholly in j"
    let parts: Vec<Held> = held(&log, record_at(line.highest))
        .into_iter()
        .filter(|&place| ![(line.i, line.i), (line.j, line.j)].contains(&lies_in(place)))
        .map(|place| Some(figure_by_holding(mode, &log, place)))
        .collect();
    let figure = figure_by_holding(mode, &log, record_at(line.lowest));
    (combine(mode, &parts), figure)
}

/// A run's mode, length and numbers: "length 30, .. three signed 64-bit numbers"; in mode
/// 5 "length 38 and four numbers". Where A is nothing, it "is stored as -2^63".
fn fields(run: &Run) -> (Mode, i64, Vec<i64>) {
    match *run {
        Run::Net { a } => (Mode::Net, 30, vec![a, 0, 0]),
        Run::Heaviest { z, a, b } => (Mode::Heaviest, 30, vec![z, stored(a), b]),
        Run::Eaten { z, a, l, h } => (Mode::Eaten, 38, vec![z, a, l, h]),
        Run::Stamp { m, q } => (Mode::Stamp, 30, vec![m, q, 0]),
    }
}

/// The bytes of a run: its length, kind 20, its mode and its numbers.
pub fn encode_run(run: &Run) -> Vec<u8> {
    let (mode, length, numbers) = fields(run);
    let mut out = Vec::new();
    put(&mut out, length, 2);
    put(&mut out, 20, 2);
    put(&mut out, i64::from(mode.number()), 2);
    for number in numbers {
        put(&mut out, number, 8);
    }
    out
}
