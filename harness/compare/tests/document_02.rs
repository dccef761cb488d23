//! What document 02 asks for, by hand and as laws: the tests that the reference is held to, put to the library.

use compare::calls;

#[path = "../../reference/tests/document_02/backwards.rs"]
mod backwards;
#[path = "../../reference/tests/document_02/backwards_laws.rs"]
mod backwards_laws;
#[path = "../../reference/tests/document_02/batch.rs"]
mod batch;
#[path = "../../reference/tests/document_02/batch_laws.rs"]
mod batch_laws;
#[path = "../../reference/tests/document_02/common.rs"]
mod common;
#[path = "../../reference/tests/document_02/common_laws.rs"]
mod common_laws;
#[path = "../../reference/tests/document_02/day_table.rs"]
mod day_table;
#[path = "../../reference/tests/document_02/drop_at_value.rs"]
mod drop_at_value;
#[path = "../../reference/tests/document_02/drop_laws.rs"]
mod drop_laws;
#[path = "../../reference/tests/document_02/farms.rs"]
mod farms;
#[path = "../../reference/tests/document_02/farms_laws.rs"]
mod farms_laws;
#[path = "../../reference/tests/document_02/heaviest_line.rs"]
mod heaviest_line;
#[path = "../../reference/tests/document_02/heaviest_line_laws.rs"]
mod heaviest_line_laws;
#[path = "../../reference/tests/document_02/levels.rs"]
mod levels;
#[path = "../../reference/tests/document_02/round_trips.rs"]
mod round_trips;
#[path = "../../reference/tests/document_02/sent_before.rs"]
mod sent_before;
#[path = "../../reference/tests/document_02/sheet.rs"]
mod sheet;
#[path = "../../reference/tests/document_02/sheet_laws.rs"]
mod sheet_laws;
#[path = "../../reference/tests/document_02/short_record_laws.rs"]
mod short_record_laws;
#[path = "../../reference/tests/document_02/short_records.rs"]
mod short_records;
#[path = "../../reference/tests/document_02/small_days.rs"]
mod small_days;
