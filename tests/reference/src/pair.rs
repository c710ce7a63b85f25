//! Pairs of message and slack, and how they are found from blocks.
//!
//! The block of trap i is the value at c_i of the polynomial whose
//! coefficients of the powers 1, 2, .. are the message's and then the slack's
//! parts; there is no power 0.

use crate::blocks::{add_to, scale, split, Block};
use crate::field;
use crate::gate::{Arrangement, Shape};
use crate::polynomial::{evaluate, interpolate};

/// The parts of a message and of a slack, in this order.
pub struct Pair {
    parts: Vec<Block>,
    size: usize,
}

/// The point of trap i is the byte i.
pub fn point(trap: u64) -> u8 {
    trap as u8
}

/// The traps of a choice in rising order.
pub fn traps_of(choice: u32) -> Vec<u64> {
    (1..=32).filter(|&trap| names(choice, trap)).collect()
}

/// Does the choice name the trap (1 to 32)?
pub fn names(choice: u32, trap: u64) -> bool {
    (choice >> (trap - 1)) & 1 == 1
}

/// The traps of 1..n that the choice does not name.
pub fn traps_outside(choice: u32, n: u64) -> Vec<u64> {
    (1..=n).filter(|&trap| !names(choice, trap)).collect()
}

/// The bytes of trap i within a record.
pub fn place(trap: u64, size: usize) -> std::ops::Range<usize> {
    let start = (trap as usize - 1) * size;
    start..start + size
}

impl Pair {
    /// The pair of a given message and slack.
    pub fn new(message: &[u8], slack: &[u8], size: usize) -> Pair {
        let mut parts = split(message, size);
        parts.extend(split(slack, size));
        Pair { parts, size }
    }

    /// The block that this pair gives to a trap.
    pub fn block(&self, trap: u64) -> Block {
        let mut block = evaluate(&self.parts, point(trap), self.size);
        scale(&mut block, point(trap));
        block
    }

    /// The message: the first k parts.
    pub fn message(&self, k: u64) -> Vec<u8> {
        self.parts[..k as usize].concat()
    }

    /// The pair of a call that is given these traps, in rising order: the one
    /// that gives the blocks which the record has at the q lowest of them.
    pub fn through(a: &Arrangement, record: &[u8], traps: &[u64]) -> Pair {
        let size = a.b as usize;
        let used = &traps[..a.shape.q() as usize];
        let values = used.iter().map(|&t| (t, record[place(t, size)].to_vec()));
        Pair {
            parts: coefficients(1, values.collect()),
            size,
        }
    }

    /// The one pair with this message that gives the wanted blocks, as many as
    /// the shape has slack parts.
    pub fn with_message(message: &[u8], to: &Shape, size: usize, wanted: &[(u64, Block)]) -> Pair {
        let known = Pair::new(message, &[], size);
        let rest = |(trap, block): &(u64, Block)| (*trap, sum(block, &known.block(*trap)));
        let mut parts = known.parts.clone();
        parts.extend(coefficients(to.k + 1, wanted.iter().map(rest).collect()));
        Pair { parts, size }
    }
}

/// The sum of two blocks.
fn sum(a: &[u8], b: &[u8]) -> Block {
    let mut sum = a.to_vec();
    add_to(&mut sum, b);
    sum
}

/// The coefficients of the powers `lowest`, `lowest` + 1, .. , as many as there
/// are values, of the polynomial that takes these values at the traps' points:
/// each value is divided by its point's power `lowest`, and then interpolated.
fn coefficients(lowest: u64, values: Vec<(u64, Block)>) -> Vec<Block> {
    let points: Vec<u8> = values.iter().map(|(trap, _)| point(*trap)).collect();
    let divided = values.into_iter().map(|(trap, mut block)| {
        scale(&mut block, field::inv(field::pow(point(trap), lowest)));
        block
    });
    interpolate(&points, divided.collect())
}

#[cfg(test)]
mod tests {
    use super::*;

    /// The document's sum, term by term, at one byte place.
    fn by_the_document(x: &[u8], v: &[u8], trap: u64) -> u8 {
        let k = x.len() as u64;
        let c = point(trap);
        let term = |value: u8, e: u64| field::mul(value, field::pow(c, e));
        let of_message = (1..=k).map(|j| term(x[j as usize - 1], j));
        let of_slack = (1..=v.len() as u64).map(|j| term(v[j as usize - 1], k + j));
        of_message.chain(of_slack).fold(0, field::add)
    }

    #[test]
    fn blocks_are_the_documents_sums() {
        let (x, v) = ([0x51, 0xC2, 0x09], [0xA0, 0x7F]);
        let pair = Pair::new(&x, &v, 1);
        for trap in 1..=32 {
            assert_eq!(pair.block(trap), vec![by_the_document(&x, &v, trap)]);
        }
    }

    #[test]
    fn parts_lie_one_after_another() {
        let (message, slack) = ([1, 2, 3, 4], [5, 6, 7, 8]);
        let pair = Pair::new(&message, &slack, 2);
        for trap in 1..=32 {
            let first = by_the_document(&[1, 3], &[5, 7], trap);
            let second = by_the_document(&[2, 4], &[6, 8], trap);
            assert_eq!(pair.block(trap), vec![first, second]);
        }
    }

    #[test]
    fn choices_and_traps() {
        assert_eq!(traps_of(0x8000_0005), vec![1, 3, 32]);
        assert_eq!(traps_outside(0b101, 4), vec![2, 4]);
        assert!(traps_of(0).is_empty());
        assert_eq!(place(3, 4), 8..12);
    }
}
