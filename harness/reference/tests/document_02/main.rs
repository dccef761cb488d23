//! The reference held against document 02, request by request.
//!
//! Expected values come from document 02, or are written out by hand. Seeds are fixed.
//! `day_table` and `round_trips` (L1), `batch` and `batch_laws` (L2), `drop_at_value` and
//! `drop_laws` (L3), `levels` (L4), `small_days` (L5), `backwards` and `backwards_laws` (L6),
//! `heaviest_line` and `heaviest_line_laws` (L7), `short_records`, `sent_before` and
//! `short_record_laws` (L8), `sheet` and `sheet_laws` (L9), `common` and `common_laws` (L10),
//! `farms` and `farms_laws` (L11) only make calls, and `compare` makes the same ones of the
//! library.

use reference::calls;

mod backwards;
mod backwards_laws;
mod batch;
mod batch_laws;
mod common;
mod common_laws;
mod day_table;
mod drawn_batches;
mod drawn_drops;
mod drawn_farms;
mod drawn_lines;
mod drawn_pairs;
mod drawn_sheets;
mod drawn_short_records;
mod drop_at_value;
mod drop_laws;
mod farms;
mod farms_laws;
mod heaviest_line;
mod heaviest_line_laws;
mod levels;
mod round_trips;
mod sent_before;
mod sheet;
mod sheet_laws;
mod short_record_laws;
mod short_records;
mod small_days;
mod tables;
