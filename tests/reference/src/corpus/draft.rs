//! The bytes of a season file: its opening and its events.

use crate::{Arrangement, Shape};

/// The bytes of a number, highest first.
pub fn number(value: u64) -> [u8; 2] {
    [(value >> 8) as u8, value as u8]
}

/// All traps from 1 to n.
pub fn all(n: u64) -> u32 {
    ((1u64 << n) - 1) as u32
}

/// A season file in the making. The counts are those of what it holds.
#[derive(Clone)]
pub struct Draft {
    pub arrangement: Arrangement,
    pub message: Vec<u8>,
    pub slack: Vec<u8>,
    pub events: Vec<Vec<u8>>,
}

/// The counts as a file writes them, which may be wrong.
#[derive(Clone, Copy)]
pub struct Counts {
    pub first: u64,
    pub message: u64,
    pub slack: u64,
    pub events: u64,
}

impl Draft {
    pub fn counts(&self) -> Counts {
        Counts {
            first: 5,
            message: self.message.len() as u64,
            slack: self.slack.len() as u64,
            events: self.events.len() as u64,
        }
    }

    pub fn bytes(&self) -> Vec<u8> {
        self.bytes_with(&self.counts())
    }

    pub fn bytes_with(&self, counts: &Counts) -> Vec<u8> {
        let mut out = self.opening_with(counts);
        for event in &self.events {
            out.extend(event);
        }
        out
    }

    /// All up to the first event.
    pub fn opening_with(&self, counts: &Counts) -> Vec<u8> {
        let mut out = number(counts.first).to_vec();
        out.extend(shape_bytes(&self.arrangement.shape));
        out.extend(number(self.arrangement.b));
        out.extend(number(counts.message));
        out.extend(&self.message);
        out.extend(number(counts.slack));
        out.extend(&self.slack);
        out.extend(number(counts.events));
        out
    }

    pub fn length(&self) -> usize {
        let events: usize = self.events.iter().map(Vec::len).sum();
        18 + self.message.len() + self.slack.len() + events
    }
}

fn shape_bytes(shape: &Shape) -> Vec<u8> {
    let numbers = [shape.k, shape.r, shape.w, shape.n];
    numbers.iter().flat_map(|&x| number(x)).collect()
}

/// An event whose first field is a choice.
fn event(kind: u8, choice: u32, rest: &[u8]) -> Vec<u8> {
    let mut out = vec![kind];
    out.extend(choice.to_be_bytes());
    out.extend(rest);
    out
}

pub fn change(write: u32, d: &[u8]) -> Vec<u8> {
    event(1, write, d)
}

pub fn rebuild(read: u32, lost: u32) -> Vec<u8> {
    event(2, read, &lost.to_be_bytes())
}

pub fn damage(traps: u32, blocks: &[u8]) -> Vec<u8> {
    event(3, traps, blocks)
}

pub fn reading(read: u32) -> Vec<u8> {
    event(4, read, &[])
}

pub fn rearrangement(read: u32, to: &Shape, write: u32, message: &[u8]) -> Vec<u8> {
    let shape = shape_bytes(to);
    event(
        5,
        read,
        &[&shape[..], &write.to_be_bytes(), message].concat(),
    )
}
