//! The rose tree of METR 2006-64 and its recursion; beside it the figure read
//! straight off the log by who holds whom.

use crate::log::{closer, held};
use crate::mode::{combine, through, Grams, Held, Mode};
use crate::record::{Open, Record};

/// METR 2006-64, Definition 1: "RTree α = Node α [RTree α]".
#[derive(Clone, Debug, PartialEq, Eq)]
pub struct Tree {
    pub record: Grams,
    pub held: Vec<Tree>,
}

/// The value, floor and ceiling of an open record.
pub fn grams(open: &Open) -> Grams {
    Grams { value: open.value, floor: open.floor, ceiling: open.ceiling }
}

/// The open record at a place. Only asked of places that hold one.
pub fn open_at(records: &[Record], place: usize) -> Open {
    match records[place] {
        Record::Open(open) => open,
        Record::Close { .. } => panic!("no open record at place {place}"),
    }
}

/// The tree of a well-formed log.
pub fn tree_of(log: &[Record]) -> Tree {
    subtree(log, 0)
}

/// The tree of the record opened at `place`, which the records also close.
///
/// METR 2006-64, Lemma 1: "A sequence of elements starting from a open element at
/// depth d to the first close element at depth d forms a subtree."
pub fn subtree(records: &[Record], place: usize) -> Tree {
    let last = closer(records, place).expect("a record that is closed");
    Tree { record: grams(&open_at(records, place)), held: forest(&records[place + 1..last]) }
}

/// Lemma 1, second half: such sequences one after another form "a sequence of
/// subtrees (namely a forest)".
fn forest(records: &[Record]) -> Vec<Tree> {
    let mut trees = Vec::new();
    let mut place = 0;
    while place < records.len() {
        trees.push(subtree(records, place));
        place = closer(records, place).expect("a record that is closed") + 1;
    }
    trees
}

/// The traversal of a tree whose root has the given depth: its open record, the
/// trees it holds one depth further down, its close record.
pub fn write(tree: &Tree, depth: usize) -> Vec<Record> {
    let mut records =
        vec![Record::Open(Open { depth, value: tree.record.value, floor: tree.record.floor, ceiling: tree.record.ceiling })];
    for part in &tree.held {
        records.extend(write(part, depth + 1));
    }
    records.push(Record::Close { depth });
    records
}

/// How many records a tree has, which stand between its root's number in log order and that of
/// the next tree beside it.
pub fn size(tree: &Tree) -> usize {
    1 + tree.held.iter().map(size).sum::<usize>()
}

/// METR 2006-64, Definition 2: "h (Node a [t1, .., tn]) = a ⊕ (h t1 ⊗ .. ⊗ h tn)".
pub fn figure(mode: Mode, tree: &Tree) -> i64 {
    let parts: Vec<Held> = tree.held.iter().map(|part| Some(figure(mode, part))).collect();
    through(mode, &tree.record, combine(mode, &parts))
}

/// "The recursion's figure on a well-formed log is the figure of the record it
/// begins with, in the mode given."
pub fn log_figure(mode: Mode, log: &[Record]) -> i64 {
    figure(mode, &tree_of(log))
}

/// The figure of each opened record's own subtree, with its place, in log order.
pub fn figures(mode: Mode, log: &[Record]) -> Vec<(usize, i64)> {
    crate::log::opens(log).into_iter().map(|place| (place, figure(mode, &subtree(log, place)))).collect()
}

/// The figure of the record opened at `place`, straight from the log: "v is a
/// record's value; its held records come in log order".
pub fn figure_by_holding(mode: Mode, records: &[Record], place: usize) -> i64 {
    let parts: Vec<Held> = held(records, place).into_iter().map(|later| Some(figure_by_holding(mode, records, later))).collect();
    through(mode, &grams(&open_at(records, place)), combine(mode, &parts))
}
