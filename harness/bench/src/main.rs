//! Speed of the proved library, in one run.
//!
//! First beside a plain recursion in C (`c/recursion.c`, `cc -O3`), which reads the same bytes with the same checks. Summarise in one mode is
//! held against the recursion for that one figure, day against the one for all four; both are given a whole log, and their answers are compared
//! before anything is timed. The logs nearly fill a chunk (65,536 bytes). There are 48 different ones of each kind: an open or a close by the
//! toss of a coin down to depth 2, 5 or 63, with open records that are short, full, mixed of both or have a batch, and a farm's day, whose
//! pattern is regular. In each of 200 rounds each call is put once to each log, the library first and the recursion first in turns. A time is
//! the sum of each log's best.
//!
//! Then merging, the plan, the runs and the work (`rows.rs`), the day table (`tables.rs`), all small days (`small_days.rs`), the way back
//! through a run (`backwards.rs`), the records behind the heaviest line (`heaviest_line.rs`), pages of the sheet (`sheet.rs`), what two
//! records have in common (`common.rs`), and the calls of a valley station (`farms.rs`). Buffers are lent once and not cleared between
//! calls; the states of a station are set back before each round, outside the time.
//!
//! Run with `cargo run --release -p bench`, for one part alone with `cargo run --release -p bench -- rows`, `beside`, `tables`,
//! `small_days`, `backwards`, `heaviest_line`, `sheet`, `common` or `farms`.

mod backwards;
mod beside;
mod chunks;
mod common;
mod farms;
mod heaviest_line;
mod peer;
mod rows;
mod sheet;
mod small_days;
mod tables;

fn main() {
    let part = std::env::args().nth(1);
    let parts = [
        ("beside", beside::bench as fn()),
        ("rows", rows::bench),
        ("tables", tables::bench),
        ("small_days", small_days::bench),
        ("backwards", backwards::bench),
        ("heaviest_line", heaviest_line::bench),
        ("sheet", sheet::bench),
        ("common", common::bench),
        ("farms", farms::bench),
    ];
    for (name, bench) in parts {
        if part.as_ref().is_none_or(|part| part == name) {
            bench();
        }
    }
}
