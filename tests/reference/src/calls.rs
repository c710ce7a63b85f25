//! The calls of document 01, as requests 2026-01, 2026-03 and 2026-06 of document 02
//! have them. Each gives its number first; a refusal writes nothing.

use crate::blame::{blame, Blame};
use crate::blocks::{add_to, Block};
use crate::gate::{self, Arrangement, RearrangementLengths, Shape};
use crate::pair::{names, place, traps_of, traps_outside, Pair};

/// Set-up: message and slack in, record written, every serial 0.
pub fn setup(
    a: &Arrangement,
    message: &[u8],
    slack: &[u8],
    record: &mut [u8],
    serials: &mut [u32],
) -> u64 {
    let (message_len, slack_len) = (message.len(), slack.len());
    let number = gate::gate_setup(a, message_len, slack_len, record.len(), serials.len());
    if number != 0 {
        return number;
    }
    let pair = Pair::new(message, slack, a.b as usize);
    for trap in 1..=a.shape.n {
        write_block(record, trap, &pair.block(trap));
    }
    serials.fill(0);
    0
}

/// Puts a block at its trap's place.
fn write_block(record: &mut [u8], trap: u64, block: &[u8]) {
    record[place(trap, block.len())].copy_from_slice(block);
}

/// Puts blocks of `b` bytes, in the rising order of their traps, at their places.
pub fn write_blocks(record: &mut [u8], b: u64, traps: u32, blocks: &[u8]) {
    let blocks = blocks.chunks_exact(b as usize);
    for (trap, block) in traps_of(traps).into_iter().zip(blocks) {
        write_block(record, trap, block);
    }
}

/// Reading: the message of R's pair, the one that gives the blocks of R's q
/// lowest traps.
pub fn reading(a: &Arrangement, record: &[u8], read: u32, out: &mut [u8]) -> u64 {
    let number = gate::gate_reading(a, record.len(), read, out.len());
    if number != 0 {
        return number;
    }
    let pair = Pair::through(a, record, &traps_of(read));
    out.copy_from_slice(&pair.message(a.shape.k));
    0
}

/// The differences of W's traps in rising order.
fn differences(a: &Arrangement, d: &[u8], write: u32) -> Vec<Block> {
    let size = a.b as usize;
    let outside = traps_outside(write, a.shape.n);
    let wanted: Vec<_> = outside.iter().map(|&t| (t, vec![0; size])).collect();
    let pair = Pair::with_message(d, &a.shape, size, &wanted);
    traps_of(write).iter().map(|&t| pair.block(t)).collect()
}

/// Difference: the blocks, at W's traps, of the one (d, slack) pair that gives
/// 00 at every trap outside W.
pub fn difference(a: &Arrangement, d: &[u8], write: u32, out: &mut [u8]) -> u64 {
    let number = gate::gate_difference(a, d.len(), write, out.len());
    if number != 0 {
        return number;
    }
    out.copy_from_slice(&differences(a, d, write).concat());
    0
}

/// What a change is given besides the record and its serials.
#[derive(Clone, Copy, Debug)]
pub struct Sending<'a> {
    pub d: &'a [u8],
    pub write: u32,
    pub serial: u32,
    /// The traps that the radio reaches: any bits.
    pub reached: u32,
}

/// Change: a trap of W that is reached adds its difference and takes the serial,
/// only if the serial is above its own.
pub fn change(a: &Arrangement, record: &mut [u8], serials: &mut [u32], given: &Sending) -> u64 {
    let Sending {
        d, write, serial, ..
    } = *given;
    let number = gate::gate_change(a, record.len(), serials.len(), d.len(), write, serial);
    if number != 0 {
        return number;
    }
    for (trap, block) in traps_of(write).into_iter().zip(differences(a, d, write)) {
        let own = &mut serials[trap as usize - 1];
        if names(given.reached, trap) && serial > *own {
            add_to(&mut record[place(trap, block.len())], &block);
            *own = serial;
        }
    }
    0
}

/// The highest serial in R, all of its traps counted.
fn highest(serials: &[u32], read: u32) -> u32 {
    let mut of_read: Vec<u32> = traps_of(read)
        .iter()
        .map(|&t| serials[t as usize - 1])
        .collect();
    of_read.sort_unstable();
    of_read[of_read.len() - 1]
}

/// Rebuild: L's blocks become those of R's pair, and L's serials R's highest.
pub fn rebuild(
    a: &Arrangement,
    record: &mut [u8],
    serials: &mut [u32],
    read: u32,
    lost: u32,
) -> u64 {
    let number = gate::gate_rebuild(a, record.len(), serials.len(), read, lost);
    if number != 0 {
        return number;
    }
    let pair = Pair::through(a, record, &traps_of(read));
    let serial = highest(serials, read);
    for trap in traps_of(lost) {
        write_block(record, trap, &pair.block(trap));
        serials[trap as usize - 1] = serial;
    }
    0
}

/// What a rearrangement is given besides the old record and serials and the new
/// ones.
#[derive(Clone, Copy, Debug)]
pub struct Move<'a> {
    pub read: u32,
    pub to: Shape,
    pub write: u32,
    pub message: &'a [u8],
}

/// Rearrangement: the new record and its serials go to buffers of their own. A
/// copied trap keeps its serial; a newly written one takes R's highest.
pub fn rearrangement(
    a: &Arrangement,
    record: &[u8],
    serials: &[u32],
    given: &Move,
    new: &mut [u8],
    new_serials: &mut [u32],
) -> u64 {
    let lengths = RearrangementLengths {
        record: record.len(),
        serials: serials.len(),
        message: given.message.len(),
        new: new.len(),
        new_serials: new_serials.len(),
    };
    let number = gate::gate_rearrangement(a, &given.to, given.read, given.write, &lengths);
    if number != 0 {
        return number;
    }
    let pair = new_pair(a, record, given);
    let serial = highest(serials, given.read);
    for trap in 1..=given.to.n {
        let index = trap as usize - 1;
        let copied = trap <= a.shape.n && !names(given.write, trap);
        if copied {
            write_block(new, trap, &record[place(trap, a.b as usize)]);
            new_serials[index] = serials[index];
        } else {
            write_block(new, trap, &pair.block(trap));
            new_serials[index] = serial;
        }
    }
    0
}

/// The pair with the new message that agrees with R's old pair at every trap
/// of 1..n' outside W'.
fn new_pair(a: &Arrangement, record: &[u8], given: &Move) -> Pair {
    let old = Pair::through(a, record, &traps_of(given.read));
    let outside = traps_outside(given.write, given.to.n);
    let wanted: Vec<_> = outside.iter().map(|&t| (t, old.block(t))).collect();
    Pair::with_message(given.message, &given.to, a.b as usize, &wanted)
}

/// Check: which traps to blame, of at most `budget` sets that are tried. A refused
/// check gives its number alone.
pub fn check(a: &Arrangement, record: &[u8], budget: u64) -> (u64, Option<Blame>) {
    let number = gate::gate_record(a, record.len());
    if number != 0 {
        return (number, None);
    }
    (0, Some(blame(a, record, budget)))
}

/// View: the part of the record that is trap i's block; empty if refused.
pub fn view<'r>(a: &Arrangement, record: &'r [u8], trap: u64) -> (u64, &'r [u8]) {
    let number = gate::gate_view(a, record.len(), trap);
    if number != 0 {
        return (number, &[]);
    }
    (0, &record[place(trap, a.b as usize)])
}
