//! Document 02, L7, "The records behind the heaviest line": the opened records that make the
//! mode 2 figure, by their numbers.
//!
//! The way goes down the tree of the log, from a record to the first of the greatest figure
//! among those that it holds. No values are added on the way: that they come to the figure is
//! what tests ask.

use crate::bytes::put;
use crate::mode::Mode;
use crate::record::Record;
use crate::tree::{figure, size, tree_of, Tree};

/// The numbers of a well-formed log, "counted from 0 in log order".
pub fn line_of(log: &[Record]) -> Vec<usize> {
    line(&tree_of(log), 0)
}

/// "from the root down to one that holds nothing": the line of a tree whose root has a
/// number. "Each directly holds the next".
fn line(tree: &Tree, number: usize) -> Vec<usize> {
    let mut numbers = vec![number];
    if let Some(place) = heaviest(&tree.held) {
        let (earlier, later) = tree.held.split_at(place);
        let next = number + 1 + earlier.iter().map(size).sum::<usize>();
        numbers.extend(line(&later[0], next));
    }
    numbers
}

/// The place of the tree to go on with: "at each step the earliest record that reaches it is
/// taken", where it is the greatest of these figures.
fn heaviest(trees: &[Tree]) -> Option<usize> {
    let figures: Vec<i64> = trees.iter().map(|tree| figure(Mode::Heaviest, tree)).collect();
    let greatest = *figures.iter().max()?;
    figures.iter().position(|&figure| figure == greatest)
}

/// "32-bit numbers"
pub fn encode_numbers(numbers: &[usize]) -> Vec<u8> {
    let mut out = Vec::new();
    for &number in numbers {
        put(&mut out, number as i64, 4);
    }
    out
}
