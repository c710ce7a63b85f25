//! What is compared: whole calls, from node sets and bytes to bytes.

use crate::buffer::Buffer;
use crate::sets::{in_order, nodes, outside, start, without_lowest, working};
use jirvents::{Blame, Params, Shape};

/// The calls that are timed. Buffers have the lengths that the library asks for.
pub trait Coder {
    /// Writes the codeword of a message and a slack.
    fn encode(&mut self, p: Params, message: &[u8], slack: &[u8], codeword: &mut [u8]);

    /// Reads the message through `from`.
    fn decode(&mut self, p: Params, codeword: &[u8], from: u32, out: &mut [u8]);

    /// Adds a change of the message through `to`.
    fn update(&mut self, p: Params, codeword: &mut [u8], change: &[u8], to: u32);

    /// Writes the blocks of `lost` anew through `from`.
    fn repair(&mut self, p: Params, codeword: &mut [u8], from: u32, lost: u32);

    /// Whether the blocks of all nodes outside `set` agree: by the whole decoding, the
    /// blocks that the q lowest of them give to all others.
    fn agrees(&mut self, p: Params, codeword: &[u8], set: u32) -> bool;

    /// The nodes to blame, of at most `budget` sets. Here each set is decoded anew.
    fn check(&mut self, p: Params, codeword: &[u8], budget: usize) -> Blame {
        for (tried, set) in in_order(p.n).enumerate() {
            if tried == budget {
                let above = without_lowest(outside(0, p.n), working(p));
                let distance = (above.count_ones() - set.count_ones()) as usize;
                return Blame {
                    set: above,
                    tried,
                    distance,
                };
            }
            if self.agrees(p, codeword, set) {
                return Blame {
                    set,
                    tried: tried + 1,
                    distance: 0,
                };
            }
        }
        unreachable!("a set of n - q nodes serves")
    }

    /// Moves to the same parameters with a new message, through `from` and `to`.
    fn reconfigure(
        &mut self,
        p: Params,
        codeword: &[u8],
        from: u32,
        to: u32,
        message: &[u8],
        out: &mut [u8],
    );

    /// Writes the inverse of a matrix stored by rows.
    fn invert(&mut self, side: usize, matrix: &[u8], out: &mut [u8]);
}

/// The library itself, with the serials that its calls are lent beside a codeword;
/// the others have none.
pub struct Library {
    serials: [u32; 32],
    out_serials: [u32; 32],
    /// That of the last change: each has a higher one, so that all its nodes add it.
    serial: u32,
    /// Where blocks are decoded to be compared.
    copy: Buffer,
}

impl Library {
    pub fn new() -> Library {
        Library {
            serials: [0; 32],
            out_serials: [0; 32],
            serial: 0,
            copy: Buffer::new(&[0; 32768]),
        }
    }
}

impl Coder for Library {
    fn encode(&mut self, p: Params, message: &[u8], slack: &[u8], codeword: &mut [u8]) {
        let serials = &mut self.serials[..p.n];
        jirvents::encode(p, message, slack, codeword, serials).expect("right arguments");
    }

    fn decode(&mut self, p: Params, codeword: &[u8], from: u32, out: &mut [u8]) {
        jirvents::decode(p, codeword, from, out).expect("right arguments");
    }

    fn update(&mut self, p: Params, codeword: &mut [u8], change: &[u8], to: u32) {
        self.serial += 1;
        let serials = &mut self.serials[..p.n];
        jirvents::update(p, codeword, serials, change, to, self.serial, to)
            .expect("right arguments");
    }

    fn repair(&mut self, p: Params, codeword: &mut [u8], from: u32, lost: u32) {
        let serials = &mut self.serials[..p.n];
        jirvents::repair(p, codeword, serials, from, lost).expect("right arguments");
    }

    /// By `repair` at r = q, into a copy of the q blocks.
    fn agrees(&mut self, p: Params, codeword: &[u8], set: u32) -> bool {
        let (q, b) = (working(p), p.b);
        let rest = outside(set, p.n);
        let further = without_lowest(rest, q);
        let copy = &mut self.copy.bytes_mut()[..codeword.len()];
        for node in nodes(rest & !further) {
            let at = start(node, b);
            copy[at..at + b].copy_from_slice(&codeword[at..at + b]);
        }
        let serials = &mut self.serials[..p.n];
        let tight = Params { r: q, ..p };
        jirvents::repair(tight, copy, serials, rest & !further, further).expect("right arguments");
        nodes(further).all(|node| {
            let at = start(node, b);
            copy[at..at + b] == codeword[at..at + b]
        })
    }

    fn check(&mut self, p: Params, codeword: &[u8], budget: usize) -> Blame {
        jirvents::check(p, codeword, budget).expect("right arguments")
    }

    fn reconfigure(
        &mut self,
        p: Params,
        codeword: &[u8],
        from: u32,
        to: u32,
        message: &[u8],
        out: &mut [u8],
    ) {
        let Params { k, r, w, n, .. } = p;
        let shape = Shape { k, r, w, n };
        let (serials, out_serials) = (&self.serials[..n], &mut self.out_serials[..n]);
        jirvents::reconfigure(
            p,
            shape,
            codeword,
            serials,
            from,
            to,
            message,
            out,
            out_serials,
        )
        .expect("right arguments");
    }

    fn invert(&mut self, side: usize, matrix: &[u8], out: &mut [u8]) {
        jirvents::invert(side, matrix, out).expect("an inverse");
    }
}
