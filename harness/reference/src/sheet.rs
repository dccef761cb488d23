//! Document 02, L9, "Sixty lines to the page": a line for every opened record, with the figure of
//! its own subtree.
//!
//! The recursion begins anew for each record, on the tree that it is the root of; nothing is kept
//! from one to the next. All lines are made and cut into pages, so that no page is multiplied by
//! 60.

use crate::mode::Mode;
use crate::record::Record;
use crate::tree::{figure, tree_of, Tree};

/// "60 lines in log order"
pub const LINES_A_PAGE: usize = 60;

/// All lines of a well-formed log: "a figure for every record, not the root alone". "Each figure
/// is what the recursion gives for that record's own subtree."
pub fn lines_of(mode: Mode, log: &[Record]) -> Vec<String> {
    let tree = tree_of(log);
    let numbered = subtrees(&tree, 0).into_iter().enumerate();
    numbered.map(|(number, (depth, tree))| line(number, depth, figure(mode, tree))).collect()
}

/// A tree and all trees within it, "in log order", each with the depth of its root: a record is
/// opened before those that it holds.
fn subtrees(tree: &Tree, depth: usize) -> Vec<(usize, &Tree)> {
    let within = tree.held.iter().flat_map(|part| subtrees(part, depth + 1));
    [(depth, tree)].into_iter().chain(within).collect()
}

/// "each the record number in 6 columns, a blank, the depth in 2, a blank, the figure in 16, all
/// right-aligned and filled with blanks, then a newline: 27 bytes"
fn line(number: usize, depth: usize, figure: i64) -> String {
    format!("{number:>6} {depth:>2} {figure:>16}\n")
}

/// "18, .. when the page starts past the last record". Otherwise "a page counted from 0: 60 lines
/// in log order, fewer only on the last page".
pub fn question_18(lines: &[String], page: u32) -> Result<&[String], u8> {
    lines.chunks(LINES_A_PAGE).nth(page as usize).ok_or(18)
}
