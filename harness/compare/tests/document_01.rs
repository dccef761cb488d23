//! Document 01's figures, the questions in their order, and figures worked out by hand: the tests that the reference is held to, put to
//! the library.

use compare::calls;

#[path = "../../reference/tests/document_01/figures.rs"]
mod figures;
#[path = "../../reference/tests/document_01/gate.rs"]
mod gate;
#[path = "../../reference/tests/document_01/paper.rs"]
mod paper;
