//! The corpus: season files made by rule and at random, the same for the same
//! seed and count.

mod boxes;
pub mod draft;
mod fixed;
mod limits;
mod random;
mod rng;
mod script;
mod shapes;
mod store;
mod tally;

pub use fixed::example;
pub use limits::file_of_length;
pub use rng::Rng;
pub use shapes::{any_shape, shapes, tight};
pub use store::Store;
pub use tally::Tally;

use std::io;

pub const DEFAULT_SEED: u64 = 1;

/// Hands on the fixed part of the corpus and `count` random files.
pub fn make(store: &mut Store, seed: u64, count: u64) -> io::Result<()> {
    let mut rng = Rng::new(seed);
    fixed::write(store, &mut rng)?;
    boxes::write(store, &mut rng)?;
    limits::write(store, &mut rng)?;
    random::write(store, &mut rng, count)
}
