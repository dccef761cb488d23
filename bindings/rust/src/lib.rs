//! The proved feed tally, as safe Rust functions.
//!
//! A call answers its result or the [`Refusal`] with the question's number, whatever it is given. Summaries are plain bytes, so that
//! they can be sent and stored as they are.
//!
//! # What the caller must see to
//!
//! Summaries are merged as neighbours, the left one first, each stretch of the log exactly once; which neighbours are merged first
//! makes no difference. A summary does not know its place in the log. Where the levels meet, stretches out of order, one given twice
//! or one left out are those of another log, and its figures come out, with no refusal. So send the number of a stretch with its
//! summary, and look at the numbers before merging.
//!
//! ```
//! use tulghimo::{example, finish, merge_row, summarise, Mode, Refusal};
//!
//! fn eaten(stretches: &[&[u8]]) -> Result<i64, Refusal> {
//!     let sent: Result<Vec<_>, _> = stretches.iter().map(|stretch| summarise(stretch, Mode::Eaten)).collect();
//!     finish(&merge_row(&sent?.concat())?)
//! }
//!
//! // Tank 1 has 5 g, of which 4 count, and tank 2 has 3 g.
//! let [one, two, three, four] = &example::four_stretches();
//! assert_eq!(eaten(&[one, two, three, four]), Ok(7));
//! // Exchanged, tank 1 has both meals. Left out, or given twice, the 3 g are gone, or 6 g.
//! assert_eq!(eaten(&[one, three, two, four]), Ok(4));
//! assert_eq!(eaten(&[one, two, four]), Ok(4));
//! assert_eq!(eaten(&[one, two, three, three, four]), Ok(10));
//! ```
//!
//! Neither a log nor a summary has a check sum: a flipped bit may be refused, and may be another number of grams. What carries the
//! bytes must carry a check of its own.
//!
//! # Buffers
//!
//! [`raw`] has the same calls with buffers that the caller lends, for those who do not want an allocation.
//!
//! `tools/library`, from the repository's root, makes the archive that this crate links.

#![deny(missing_docs, unsafe_code)]

mod calls;
pub mod example;
mod farms;
#[allow(unsafe_code)]
pub mod raw;
mod refusal;
mod types;

pub use calls::{
    backwards, common, day, finish, heaviest_line, merge, merge_row, plan, read_record, read_table, runs, sheet, small_days,
    summarise, work, write_log,
};
pub use farms::Farms;
pub use refusal::Refusal;
pub use types::{Figures, Kind, Line, Mode, Record, Run, TableLine, Work};
