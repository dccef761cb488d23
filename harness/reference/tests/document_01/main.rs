//! The reference held against document 01, and its parts against each other.
//!
//! Expected values come from document 01, in mode 5 from document 02, or from a
//! computation written out in a comment. Seeds are fixed. `paper`, `gate` and `figures`
//! only make calls, and `compare` makes the same ones of the library.

use reference::calls;

mod agree;
mod figures;
mod forged;
mod gate;
mod paper;
mod question_5;
mod records;
mod rewrite;
mod rows;
