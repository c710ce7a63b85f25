//! Tests of the library: its calls are put to it through the Rust wrapper, and
//! each outcome is held against the reference's.

mod lent;
mod library;
mod make;

pub use lent::Lent;
pub use library::{params, Library};
pub use make::{
    about, any_arrangement, any_serial, any_serials, right, shape_with, shapes, spoil, Call,
};

use reference::cases::{Case, Reference};
use std::collections::BTreeSet;

/// Puts a case to both; the number, every byte, every serial and what is given beside
/// them must be the same.
pub fn agree(case: &Case) -> u64 {
    let expected = case.run(&Reference);
    let found = case.run(&Library);
    assert!(found == expected, "{case:x?}\n{found:x?}\n{expected:x?}");
    found.number
}

/// The numbers that some cases were answered with.
#[derive(Default)]
pub struct Answers {
    numbers: BTreeSet<u64>,
}

impl Answers {
    pub fn agree(&mut self, case: &Case) {
        self.numbers.insert(agree(case));
    }

    /// Exactly these numbers must have come up.
    pub fn test(&self, what: impl std::fmt::Debug, numbers: &[u64]) {
        let found: Vec<u64> = self.numbers.iter().copied().collect();
        assert_eq!(found, numbers, "{what:?}");
    }
}
