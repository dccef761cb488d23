//! The reference tally: document 01 ("The feed log, its hills and its join
//! plan"), the tree recursion of METR 2006-64, and what document 02 ("Changes
//! customers asked for later") added, written out slowly and plainly.
//!
//! Everything else is compared with this crate, so it is meant to be read beside
//! the two documents. Each function quotes the sentence that it puts into code.
//! Records find their closes and their holders by search, never by a stack.
//!
//! | Section of document 01     | Module                                   |
//! |----------------------------|------------------------------------------|
//! | Records                    | [`bytes`], [`record`], [`log`], [`tree`] |
//! | Four modes                 | [`mode`]                                 |
//! | Summaries                  | [`summary`], [`merge`], [`layout`]       |
//! | Plan and runs              | [`plan`], [`run`], [`work`], [`row`]     |
//! | The row of demand 3        | [`replay`]                               |
//! | The questions at the gate  | [`gate`], [`calls`]                      |
//!
//! | Request of document 02     | Module                                   |
//! |----------------------------|------------------------------------------|
//! | L1                         | [`table`], [`calls`]                     |
//! | L2                         | [`record`], [`calls`]                    |
//! | L3                         | [`mode`], [`layout`], [`run`]            |
//! | L5                         | [`small_days`], [`calls`]                |
//! | L6                         | [`backwards`], [`calls`]                 |
//! | L7                         | [`heaviest_line`], [`calls`]             |
//! | L8                         | [`record`]                               |
//! | L9                         | [`sheet`], [`calls`]                     |
//! | L10                        | [`common`], [`calls`]                    |
//! | L11                        | [`farms`], [`ledger`], [`calls`]         |
//!
//! [`gen`] makes the inputs that tests try: logs, cuts, merge lists, day tables, runs, pages,
//! pairs of records, calls on a station's state, damaged bytes and summaries that no chunk makes.

pub mod backwards;
pub mod bytes;
pub mod calls;
pub mod common;
pub mod farms;
pub mod gate;
pub mod gen;
pub mod heaviest_line;
pub mod layout;
pub mod ledger;
pub mod log;
pub mod merge;
pub mod mode;
pub mod plan;
pub mod record;
pub mod replay;
pub mod row;
pub mod run;
pub mod sheet;
pub mod small_days;
pub mod summary;
pub mod table;
pub mod tree;
pub mod work;
