//! A reference of document 01 and of requests 2026-01 and 2026-03 to 2026-06 of
//! document 02, written from these documents alone.
//!
//! It shares no method with an implementation by tables and elimination:
//! products are made by shift and reduce, the pair is found by Newton's
//! interpolation, anew for each set that a check tries, and the matrix inverse
//! works on columns.

pub mod blame;
pub mod blocks;
pub mod calls;
pub mod cases;
pub mod corpus;
pub mod field;
pub mod gate;
pub mod lists;
pub mod matrix;
pub mod pair;
pub mod polynomial;
pub mod season;
pub mod stolen;
pub mod vectors;

pub use blame::Blame;
pub use calls::{change, check, difference, reading, rearrangement, rebuild, setup, view};
pub use gate::{Arrangement, Shape};
pub use matrix::inverse;
pub use season::season;
