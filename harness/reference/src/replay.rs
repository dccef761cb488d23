//! "The row of demand 3": a list of merges on the row of a cut log. Once by the
//! calls on bytes, once by the stretches, whose summaries are made afresh from their
//! records.

use crate::calls;
use crate::layout::encode;
use crate::mode::Mode;
use crate::record::Record;
use crate::summary::summary_of;

/// "merge on two neighbours of the row as it then stands, or merging a row on two or
/// more neighbours, lent end to end"
#[derive(Clone, Copy, Debug, PartialEq, Eq)]
pub enum Call {
    Merge,
    MergeRow,
}

/// One merge of the list, "with a buffer of its own, of any length": which call, the
/// first of the neighbours, how many they are (two for `Merge`), the capacity.
#[derive(Clone, Copy, Debug, PartialEq, Eq)]
pub struct Step {
    pub call: Call,
    pub place: usize,
    pub count: usize,
    pub capacity: usize,
}

/// A merge's answer: the length it wrote or the refusal.
pub type Answer = Result<usize, u8>;

/// The list on a row of summaries by the calls. A refusal "leaves the row as it was,
/// and the list goes on"; otherwise "the bytes it wrote take the place of the merged
/// ones".
pub fn replay(mut row: Vec<Vec<u8>>, steps: &[Step]) -> (Vec<Answer>, Vec<Vec<u8>>) {
    let mut answers = Vec::new();
    for step in steps {
        let lent = &row[step.place..step.place + step.count];
        let result = match step.call {
            Call::Merge => calls::merge(&lent[0], &lent[1], step.capacity),
            Call::MergeRow => calls::merge_row(&lent.concat(), step.capacity),
        };
        answers.push(result.as_ref().map(Vec::len).map_err(|&number| number));
        if let Ok(written) = result {
            row.splice(step.place..step.place + step.count, [written]);
        }
    }
    (answers, row)
}

/// The stretches of a row as it stands. "The stretch of a summary is the chunks it
/// came from, joined; its summary is what 'Summaries' says of a chunk, however long
/// the stretch is."
#[derive(Clone, Debug)]
pub struct Stretches {
    pub mode: Mode,
    pub stretches: Vec<Vec<Record>>,
}

impl Stretches {
    /// How many summaries the row has as it stands.
    pub fn count(&self) -> usize {
        self.stretches.len()
    }

    /// The summary of neighbouring stretches joined.
    pub fn joined(&self, place: usize, count: usize) -> Vec<u8> {
        let joined = self.stretches[place..place + count].concat();
        encode(&summary_of(self.mode, &joined))
    }

    /// "A merge whose buffer is shorter than the summary of the joined stretches
    /// answers 12 and leaves the row as it was, .. any other answers that summary's
    /// length".
    pub fn step(&mut self, step: &Step) -> Answer {
        let length = self.joined(step.place, step.count).len();
        if step.capacity < length {
            return Err(12);
        }
        let range = step.place..step.place + step.count;
        let joined = self.stretches[range.clone()].concat();
        self.stretches.splice(range, [joined]);
        Ok(length)
    }

    /// The row as it stands: each stretch's own summary.
    pub fn row(&self) -> Vec<Vec<u8>> {
        (0..self.count()).map(|place| self.joined(place, 1)).collect()
    }
}
