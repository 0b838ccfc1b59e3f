//! What is built around the bay: sheets and calls made at random, the comparison, the round trip, the timing.

pub mod analysis;
pub mod calls;
pub mod compare;
pub mod draft;
pub mod edits;
pub mod generate;
pub mod random;
pub mod rattle;
pub mod roundtrip;
pub mod small;
pub mod timed;
pub mod timing;
