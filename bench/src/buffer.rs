//! Bytes to lend. Each buffer starts on a boundary of 64 bytes (jerasure asks for
//! 16), each at another one of its page, so that no comparison is decided by how
//! buffers lie to each other.

use std::sync::atomic::{AtomicUsize, Ordering};

const BOUNDARY: usize = 64;
const PAGE: usize = 4096;

static TURN: AtomicUsize = AtomicUsize::new(0);

pub struct Buffer {
    held: Vec<u8>,
    start: usize,
}

impl Buffer {
    pub fn new(bytes: &[u8]) -> Buffer {
        let mut held = vec![0; bytes.len() + BOUNDARY + PAGE];
        let turn = TURN.fetch_add(1, Ordering::Relaxed);
        // Squared, so that neighbours lie differently from time to time.
        let boundary = (turn * turn * 29 + turn) % (PAGE / BOUNDARY);
        let start = held.as_ptr().align_offset(BOUNDARY) + boundary * BOUNDARY;
        held.truncate(start + bytes.len());
        held[start..].copy_from_slice(bytes);
        Buffer { held, start }
    }

    pub fn bytes(&self) -> &[u8] {
        &self.held[self.start..]
    }

    pub fn bytes_mut(&mut self) -> &mut [u8] {
        &mut self.held[self.start..]
    }
}
