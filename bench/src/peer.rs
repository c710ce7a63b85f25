//! The calls as a program over another implementation of the field makes them:
//! powers one by one, a general inverse, products of small matrices entry by
//! entry, and then one product with blocks. Room is kept from call to call.

use crate::buffer::Buffer;
use crate::coder::Coder;
use crate::sets::{nodes, outside, start, without_lowest, working};
use jirvents::Params;
use std::ops::BitXorAssign;
use std::ptr;

/// What another implementation brings.
pub trait Peer {
    /// An entry of a matrix.
    type Symbol: Copy + Default + From<u8> + BitXorAssign + TryInto<u8>;

    fn multiply(&self, x: Self::Symbol, y: Self::Symbol) -> Self::Symbol;

    /// Writes the inverse of a matrix, which need not keep its entries.
    fn invert(&mut self, side: usize, matrix: &mut [Self::Symbol], out: &mut [Self::Symbol]);

    /// Each target becomes its row of coefficients times the sources.
    ///
    /// # Safety
    /// All point at blocks of `b` bytes, and no target is another or a source.
    unsafe fn write(
        &mut self,
        b: usize,
        coeffs: &[Self::Symbol],
        sources: &[*const u8],
        targets: &[*mut u8],
    );

    /// To each target its row of coefficients times the sources is added.
    ///
    /// # Safety
    /// All point at blocks of `b` bytes, and no target is another or a source.
    unsafe fn add(
        &mut self,
        b: usize,
        coeffs: &[Self::Symbol],
        sources: &[*const u8],
        targets: &[*mut u8],
    );
}

type Matrix<S> = [S; 1024];

/// The calls over a peer.
pub struct Calls<P: Peer> {
    peer: P,
    known: Matrix<P::Symbol>,
    wanted: Matrix<P::Symbol>,
    square: Matrix<P::Symbol>,
    inverse: Matrix<P::Symbol>,
    share: Matrix<P::Symbol>,
    coeffs: Matrix<P::Symbol>,
    sources: [*const u8; 32],
    targets: [*mut u8; 32],
    values: Buffer,
}

/// Lists parts to read.
fn list<'a>(parts: impl Iterator<Item = &'a [u8]>, sources: &mut [*const u8]) {
    for (source, part) in sources.iter_mut().zip(parts) {
        *source = part.as_ptr();
    }
}

/// Lists the blocks of a set to read.
fn list_blocks(codeword: *const [u8], set: u32, b: usize, sources: &mut [*const u8]) {
    for (source, node) in sources.iter_mut().zip(nodes(set)) {
        assert!(start(node, b) + b <= codeword.len());
        *source = codeword.cast::<u8>().wrapping_add(start(node, b));
    }
}

/// Lists the blocks of a set to write.
fn list_blocks_mut(codeword: *mut [u8], set: u32, b: usize, targets: &mut [*mut u8]) {
    for (target, node) in targets.iter_mut().zip(nodes(set)) {
        assert!(start(node, b) + b <= codeword.len());
        *target = codeword.cast::<u8>().wrapping_add(start(node, b));
    }
}

/// A row for each node of the set, from the lowest, as far as there is room: the
/// powers 1 to `count` of its point.
fn powers<P: Peer>(peer: &P, set: u32, count: usize, out: &mut [P::Symbol]) {
    for (row, node) in out.chunks_exact_mut(count).zip(nodes(set)) {
        let point = P::Symbol::from(node);
        let mut power = point;
        row[0] = power;
        for entry in &mut row[1..] {
            power = peer.multiply(power, point);
            *entry = power;
        }
    }
}

/// Columns of a matrix.
struct Columns<'a, S> {
    entries: &'a [S],
    stride: usize,
    from: usize,
    width: usize,
}

impl<'a, S> Columns<'a, S> {
    fn row(&self, i: usize) -> &'a [S] {
        let start = i * self.stride + self.from;
        &self.entries[start..start + self.width]
    }
}

/// Some columns of a matrix whose rows have this stride.
fn columns<S>(entries: &[S], stride: usize, from: usize, width: usize) -> Columns<'_, S> {
    Columns {
        entries,
        stride,
        from,
        width,
    }
}

/// All columns.
fn whole<S>(entries: &[S], width: usize) -> Columns<'_, S> {
    columns(entries, width, 0, width)
}

/// Adds x·y to `out`, whose rows have a stride of their own.
fn add_product<P: Peer>(
    peer: &P,
    rows: usize,
    x: Columns<P::Symbol>,
    y: Columns<P::Symbol>,
    out: &mut [P::Symbol],
    stride: usize,
) {
    for i in 0..rows {
        let sums = &mut out[i * stride..i * stride + y.width];
        for (j, &c) in x.row(i).iter().enumerate() {
            for (sum, &entry) in sums.iter_mut().zip(y.row(j)) {
                *sum ^= peer.multiply(c, entry);
            }
        }
    }
}

impl<P: Peer> Calls<P> {
    pub fn new(peer: P) -> Self {
        let empty = [P::Symbol::default(); 1024];
        Calls {
            peer,
            known: empty,
            wanted: empty,
            square: empty,
            inverse: empty,
            share: empty,
            coeffs: empty,
            sources: [ptr::null(); 32],
            targets: [ptr::null_mut(); 32],
            values: Buffer::new(&[0; 32768]),
        }
    }

    /// The inverse of the powers 1 to q of the points of the q lowest nodes.
    fn invert_powers(&mut self, set: u32, q: usize) {
        let square = &mut self.square[..q * q];
        powers(&self.peer, set, q, square);
        self.peer.invert(q, square, &mut self.inverse[..q * q]);
    }

    /// What takes the q lowest blocks of `from` to those of `to`: rows of q
    /// coefficients.
    fn carry(&mut self, q: usize, from: u32, to: u32) -> usize {
        self.invert_powers(from, q);
        let count = to.count_ones() as usize;
        let wanted = &mut self.wanted[..count * q];
        powers(&self.peer, to, q, wanted);
        let coeffs = &mut self.coeffs[..count * q];
        coeffs.fill(P::Symbol::default());
        let (x, y) = (whole(wanted, q), whole(&self.inverse, q));
        add_product(&self.peer, count, x, y, coeffs, q);
        count
    }

    /// The powers of the points of the l nodes outside `to` and of the w in it,
    /// and the inverse of the slack's columns of the former.
    fn complete(&mut self, p: Params, to: u32) {
        let Params { k, w, n, .. } = p;
        let (q, l) = (working(p), n - w);
        powers(&self.peer, outside(to, n), q, &mut self.known[..l * q]);
        powers(&self.peer, to, q, &mut self.wanted[..w * q]);
        for (i, row) in self.square[..l * l].chunks_exact_mut(l).enumerate() {
            row.copy_from_slice(&self.known[i * q + k..][..l]);
        }
        let square = &mut self.square[..l * l];
        self.peer.invert(l, square, &mut self.inverse[..l * l]);
    }
}

impl<P: Peer> Coder for Calls<P> {
    fn encode(&mut self, p: Params, message: &[u8], slack: &[u8], codeword: &mut [u8]) {
        let Params { n, b, .. } = p;
        let q = working(p);
        let all = outside(0, n);
        powers(&self.peer, all, q, &mut self.coeffs[..n * q]);
        let parts = message.chunks_exact(b).chain(slack.chunks_exact(b));
        list(parts, &mut self.sources);
        list_blocks_mut(codeword, all, b, &mut self.targets);
        let (coeffs, sources) = (&self.coeffs[..n * q], &self.sources[..q]);
        // SAFETY: parts of the message and the slack, and the codeword's blocks.
        unsafe { self.peer.write(b, coeffs, sources, &self.targets[..n]) }
    }

    fn decode(&mut self, p: Params, codeword: &[u8], from: u32, out: &mut [u8]) {
        let Params { k, b, .. } = p;
        let q = working(p);
        self.invert_powers(from, q);
        list_blocks(codeword, from, b, &mut self.sources);
        list_blocks_mut(out, outside(0, k), b, &mut self.targets);
        let (coeffs, sources) = (&self.inverse[..k * q], &self.sources[..q]);
        // SAFETY: the codeword's blocks and the message's parts.
        unsafe { self.peer.write(b, coeffs, sources, &self.targets[..k]) }
    }

    fn update(&mut self, p: Params, codeword: &mut [u8], change: &[u8], to: u32) {
        let Params { k, w, n, b, .. } = p;
        let (q, l) = (working(p), n - w);
        self.complete(p, to);
        // The slack that makes the blocks outside vanish, then the blocks within.
        let share = &mut self.share[..l * k];
        share.fill(P::Symbol::default());
        let (x, y) = (whole(&self.inverse, l), columns(&self.known, q, 0, k));
        add_product(&self.peer, l, x, y, share, k);
        for (i, row) in self.coeffs[..w * k].chunks_exact_mut(k).enumerate() {
            row.copy_from_slice(&self.wanted[i * q..][..k]);
        }
        let (x, y) = (columns(&self.wanted, q, k, l), whole(&self.share, k));
        add_product(&self.peer, w, x, y, &mut self.coeffs, k);

        list(change.chunks_exact(b), &mut self.sources);
        list_blocks_mut(codeword, to, b, &mut self.targets);
        let (coeffs, sources) = (&self.coeffs[..w * k], &self.sources[..k]);
        // SAFETY: the change's parts and the codeword's blocks.
        unsafe { self.peer.add(b, coeffs, sources, &self.targets[..w]) }
    }

    fn repair(&mut self, p: Params, codeword: &mut [u8], from: u32, lost: u32) {
        let (q, b) = (working(p), p.b);
        let count = self.carry(q, from, lost);
        let codeword: *mut [u8] = codeword;
        list_blocks(codeword, from, b, &mut self.sources);
        list_blocks_mut(codeword, lost, b, &mut self.targets);
        let (coeffs, sources) = (&self.coeffs[..count * q], &self.sources[..q]);
        // SAFETY: blocks of the codeword, `lost` being apart from `from`.
        unsafe { self.peer.write(b, coeffs, sources, &self.targets[..count]) }
    }

    fn agrees(&mut self, p: Params, codeword: &[u8], set: u32) -> bool {
        let (q, b) = (working(p), p.b);
        let rest = outside(set, p.n);
        let further = without_lowest(rest, q);
        if further == 0 {
            return true;
        }
        let count = self.carry(q, rest, further);
        list_blocks(codeword, rest, b, &mut self.sources);
        let values = self.values.bytes_mut();
        list_blocks_mut(values, outside(0, count), b, &mut self.targets);
        let (coeffs, sources) = (&self.coeffs[..count * q], &self.sources[..q]);
        // SAFETY: the codeword's blocks and those of a buffer of its own.
        unsafe { self.peer.write(b, coeffs, sources, &self.targets[..count]) }
        let mut values = self.values.bytes().chunks_exact(b).zip(nodes(further));
        values.all(|(value, node)| *value == codeword[start(node, b)..][..b])
    }

    fn reconfigure(
        &mut self,
        p: Params,
        codeword: &[u8],
        from: u32,
        to: u32,
        message: &[u8],
        out: &mut [u8],
    ) {
        let Params { k, w, n, b, .. } = p;
        let (q, l) = (working(p), n - w);
        // The old values outside `to`.
        let free = outside(to, n);
        self.carry(q, from, free);
        list_blocks(codeword, from, b, &mut self.sources);
        let values = self.values.bytes_mut();
        list_blocks_mut(values, outside(0, l), b, &mut self.targets);
        let (coeffs, sources) = (&self.coeffs[..l * q], &self.sources[..q]);
        // SAFETY: the codeword's blocks and those of a buffer of its own.
        unsafe { self.peer.write(b, coeffs, sources, &self.targets[..l]) }

        // Columns for the new message, then for the old values.
        self.complete(p, to);
        let gains = &mut self.share[..w * l];
        gains.fill(P::Symbol::default());
        let (x, y) = (columns(&self.wanted, q, k, l), whole(&self.inverse, l));
        add_product(&self.peer, w, x, y, gains, l);
        for (i, row) in self.coeffs[..w * q].chunks_exact_mut(q).enumerate() {
            row[..k].copy_from_slice(&self.wanted[i * q..][..k]);
            row[k..].copy_from_slice(&gains[i * l..][..l]);
        }
        let (x, y) = (whole(&self.share, l), columns(&self.known, q, 0, k));
        add_product(&self.peer, w, x, y, &mut self.coeffs, q);

        let values = self.values.bytes()[..l * b].chunks_exact(b);
        let parts = message.chunks_exact(b).chain(values);
        list(parts, &mut self.sources);
        list_blocks_mut(out, to, b, &mut self.targets);
        let (coeffs, sources) = (&self.coeffs[..w * q], &self.sources[..q]);
        // SAFETY: parts of the message, blocks of the buffer, blocks of `out`.
        unsafe { self.peer.write(b, coeffs, sources, &self.targets[..w]) }
        for node in nodes(free) {
            let at = start(node, b);
            out[at..at + b].copy_from_slice(&codeword[at..at + b]);
        }
    }

    fn invert(&mut self, side: usize, matrix: &[u8], out: &mut [u8]) {
        let square = &mut self.square[..side * side];
        for (entry, &byte) in square.iter_mut().zip(matrix) {
            *entry = byte.into();
        }
        let inverse = &mut self.inverse[..side * side];
        self.peer.invert(side, square, inverse);
        for (byte, &entry) in out.iter_mut().zip(&*inverse) {
            *byte = entry.try_into().unwrap_or_default();
        }
    }
}
