//! Document 02, L10, "The tank two drops have in common": the deepest record that is each of two
//! or holds it.
//!
//! The way goes down the tree of the log, from a record to that one which it holds and which has
//! both, as long as there is such a one. A record has the numbers from its own on, as many as its
//! tree has records.

use crate::record::Record;
use crate::tree::{size, tree_of, Tree};

/// "19, .. when either number is not below the opened count"
pub fn question_19(opened: u64, both: [u32; 2]) -> Result<(), u8> {
    if both.iter().all(|&number| u64::from(number) < opened) {
        Ok(())
    } else {
        Err(19)
    }
}

/// Of a well-formed log that opens both: "give the deepest record that is each of them or holds
/// it".
pub fn common_of(log: &[Record], both: [u32; 2]) -> u32 {
    deepest(&tree_of(log), 0, both)
}

/// The same of a tree that has both, and whose root has a number. Where one of the held trees has
/// both, the root is not the deepest: "no deeper record may have the property".
fn deepest(tree: &Tree, number: u32, both: [u32; 2]) -> u32 {
    let mut first = number + 1;
    for held in &tree.held {
        let next = first + size(held) as u32;
        if both.iter().all(|other| (first..next).contains(other)) {
            return deepest(held, first, both);
        }
        first = next;
    }
    number
}
