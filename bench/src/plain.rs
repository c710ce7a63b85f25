//! Plain Rust: a row of 256 products for each coefficient, tables of logarithms
//! and powers for single products, Gauss-Jordan elimination.

use crate::peer::Peer;
use std::slice;

pub struct Plain {
    /// Row c has c·x for every x.
    products: Vec<[u8; 256]>,
    log: [u8; 256],
    /// Twice the 255 powers of 02, so that no sum of logarithms is reduced.
    exp: [u8; 510],
}

impl Plain {
    pub fn new() -> Plain {
        let (mut log, mut exp) = ([0; 256], [0; 510]);
        let mut power = 1;
        for i in 0..255 {
            log[usize::from(power)] = i as u8;
            exp[i] = power;
            exp[i + 255] = power;
            power = (power << 1) ^ ((power >> 7) * 0x1D);
        }
        let products = Vec::new();
        let mut plain = Plain { products, log, exp };
        for c in 0..=255 {
            let row = std::array::from_fn(|x| plain.multiply(c, x as u8));
            plain.products.push(row);
        }
        plain
    }

    fn inverse(&self, x: u8) -> u8 {
        self.exp[255 - usize::from(self.log[usize::from(x)])]
    }
}

/// Row j of a matrix and the rows about it.
fn around(matrix: &mut [u8], side: usize, j: usize) -> (&mut [u8], &mut [u8], &mut [u8]) {
    let (before, rest) = matrix.split_at_mut(j * side);
    let (row, after) = rest.split_at_mut(side);
    (before, row, after)
}

impl Peer for Plain {
    type Symbol = u8;

    #[inline]
    fn multiply(&self, x: u8, y: u8) -> u8 {
        if x == 0 || y == 0 {
            return 0;
        }
        let (x, y) = (self.log[usize::from(x)], self.log[usize::from(y)]);
        self.exp[usize::from(x) + usize::from(y)]
    }

    fn invert(&mut self, side: usize, matrix: &mut [u8], out: &mut [u8]) {
        out.fill(0);
        for i in 0..side {
            out[i * side + i] = 1;
        }
        for j in 0..side {
            let mut below = j..side;
            let pivot = below.find(|&i| matrix[i * side + j] != 0);
            let pivot = pivot.expect("an inverse");
            if pivot != j {
                for x in 0..side {
                    matrix.swap(j * side + x, pivot * side + x);
                    out.swap(j * side + x, pivot * side + x);
                }
            }
            let (before, row, after) = around(matrix, side, j);
            let (out_before, out_row, out_after) = around(out, side, j);
            let factor = self.inverse(row[j]);
            for entry in row.iter_mut().chain(out_row.iter_mut()) {
                *entry = self.multiply(factor, *entry);
            }
            let others = before.chunks_exact_mut(side);
            let out_others = out_before.chunks_exact_mut(side);
            let others = others.chain(after.chunks_exact_mut(side));
            let out_others = out_others.chain(out_after.chunks_exact_mut(side));
            for (other, out_other) in others.zip(out_others) {
                let c = other[j];
                for (entry, &x) in other.iter_mut().zip(&*row) {
                    *entry ^= self.multiply(c, x);
                }
                for (entry, &x) in out_other.iter_mut().zip(&*out_row) {
                    *entry ^= self.multiply(c, x);
                }
            }
        }
    }

    unsafe fn write(
        &mut self,
        b: usize,
        coeffs: &[u8],
        sources: &[*const u8],
        targets: &[*mut u8],
    ) {
        for &target in targets {
            // SAFETY: a block, by this function's own condition.
            unsafe { slice::from_raw_parts_mut(target, b) }.fill(0);
        }
        // SAFETY: the same blocks.
        unsafe { self.add(b, coeffs, sources, targets) }
    }

    unsafe fn add(&mut self, b: usize, coeffs: &[u8], sources: &[*const u8], targets: &[*mut u8]) {
        for (row, &target) in coeffs.chunks_exact(sources.len()).zip(targets) {
            // SAFETY: a block, by this function's own condition.
            let target = unsafe { slice::from_raw_parts_mut(target, b) };
            for (&c, &source) in row.iter().zip(sources) {
                // SAFETY: another block.
                let source = unsafe { slice::from_raw_parts(source, b) };
                let products = &self.products[usize::from(c)];
                for (sum, &x) in target.iter_mut().zip(source) {
                    *sum ^= products[usize::from(x)];
                }
            }
        }
    }
}
