//! The calls where serials have no part: they are all 0 before, and a change
//! under serial 1 reaches all of W.

use reference::calls::{Move, Sending};
use reference::Arrangement;

fn zeros(n: u64) -> Vec<u32> {
    vec![0; n.min(32) as usize]
}

pub fn setup(a: &Arrangement, message: &[u8], slack: &[u8], record: &mut [u8]) -> u64 {
    reference::setup(a, message, slack, record, &mut zeros(a.shape.n))
}

pub fn change(a: &Arrangement, record: &mut [u8], d: &[u8], write: u32) -> u64 {
    let given = Sending {
        d,
        write,
        serial: 1,
        reached: write,
    };
    reference::change(a, record, &mut zeros(a.shape.n), &given)
}

pub fn rebuild(a: &Arrangement, record: &mut [u8], read: u32, lost: u32) -> u64 {
    reference::rebuild(a, record, &mut zeros(a.shape.n), read, lost)
}

pub fn rearrangement(a: &Arrangement, record: &[u8], given: &Move, new: &mut [u8]) -> u64 {
    let (old, mut serials) = (zeros(a.shape.n), zeros(given.to.n));
    reference::rearrangement(a, record, &old, given, new, &mut serials)
}
