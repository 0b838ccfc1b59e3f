//! A routine bay in Rust, written from the documents alone: the second reading that the Rattle bay is
//! compared with and timed against.

pub mod bay;
pub mod catalog;
pub mod check;
pub mod domain;
pub mod nonzero;
pub mod number;
pub mod pair;
pub mod play;
pub mod refusal;
pub mod sheet;
pub mod span;
pub mod stride;
