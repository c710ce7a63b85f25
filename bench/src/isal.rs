//! Intel's ISA-L.

use crate::buffer::Buffer;
use crate::peer::Peer;
use std::ffi::c_int;
use std::{ptr, slice};

extern "C" {
    fn gf_mul(a: u8, b: u8) -> u8;
    fn gf_invert_matrix(matrix: *mut u8, out: *mut u8, n: c_int) -> c_int;
    fn ec_init_tables(k: c_int, rows: c_int, coeffs: *mut u8, tables: *mut u8);
    fn ec_encode_data(
        len: c_int,
        k: c_int,
        rows: c_int,
        tables: *mut u8,
        data: *mut *mut u8,
        coding: *mut *mut u8,
    );
}

pub struct IsaL {
    /// 32 bytes for each coefficient.
    tables: Buffer,
    /// Where a product that is to be added stands first, and its blocks.
    fresh: Buffer,
    blocks: [*mut u8; 32],
}

impl IsaL {
    pub fn new() -> IsaL {
        IsaL {
            tables: Buffer::new(&[0; 32768]),
            fresh: Buffer::new(&[0; 32768]),
            blocks: [ptr::null_mut(); 32],
        }
    }
}

/// ISA-L leaves the upper halves of the vector registers in use, and then all SSE
/// code runs slower until they are cleared, also that of others.
#[cfg(target_arch = "x86_64")]
fn clear_upper_halves() {
    use std::arch::x86_64::_mm256_zeroupper;

    #[target_feature(enable = "avx")]
    fn clear() {
        _mm256_zeroupper();
    }
    if is_x86_feature_detected!("avx") {
        // SAFETY: the processor has it.
        unsafe { clear() }
    }
}

#[cfg(not(target_arch = "x86_64"))]
fn clear_upper_halves() {}

/// Writes a product, with room for the tables of its coefficients.
///
/// # Safety
/// The sources and targets point at blocks of `b` bytes, and no target is
/// another or a source.
unsafe fn product(
    b: usize,
    coeffs: &[u8],
    sources: &[*const u8],
    targets: &[*mut u8],
    tables: &mut [u8],
) {
    assert!(tables.len() >= 32 * coeffs.len());
    let (k, rows) = (sources.len() as c_int, targets.len() as c_int);
    // SAFETY: the tables have their room, and the blocks are this function's own
    // condition. Coefficients and sources are only read.
    unsafe {
        ec_init_tables(k, rows, coeffs.as_ptr().cast_mut(), tables.as_mut_ptr());
        ec_encode_data(
            b as c_int,
            k,
            rows,
            tables.as_mut_ptr(),
            sources.as_ptr().cast_mut().cast(),
            targets.as_ptr().cast_mut(),
        );
    }
    clear_upper_halves();
}

impl Peer for IsaL {
    type Symbol = u8;

    fn multiply(&self, x: u8, y: u8) -> u8 {
        // SAFETY: a function of two bytes.
        unsafe { gf_mul(x, y) }
    }

    fn invert(&mut self, side: usize, matrix: &mut [u8], out: &mut [u8]) {
        assert!(matrix.len() == side * side && out.len() == side * side);
        let (matrix, out) = (matrix.as_mut_ptr(), out.as_mut_ptr());
        // SAFETY: both have this side.
        let failure = unsafe { gf_invert_matrix(matrix, out, side as c_int) };
        assert!(failure == 0, "an inverse");
    }

    unsafe fn write(
        &mut self,
        b: usize,
        coeffs: &[u8],
        sources: &[*const u8],
        targets: &[*mut u8],
    ) {
        let tables = self.tables.bytes_mut();
        // SAFETY: this function's own condition.
        unsafe { product(b, coeffs, sources, targets, tables) }
    }

    unsafe fn add(&mut self, b: usize, coeffs: &[u8], sources: &[*const u8], targets: &[*mut u8]) {
        let blocks = &mut self.blocks[..targets.len()];
        let fresh = self.fresh.bytes_mut().chunks_exact_mut(b);
        for (place, block) in blocks.iter_mut().zip(fresh) {
            *place = block.as_mut_ptr();
        }
        // SAFETY: the sources, and blocks of a buffer of its own.
        unsafe { product(b, coeffs, sources, blocks, self.tables.bytes_mut()) }
        for (block, &target) in self.fresh.bytes().chunks_exact(b).zip(targets) {
            // SAFETY: a block, by this function's own condition.
            let target = unsafe { slice::from_raw_parts_mut(target, b) };
            for (sum, &x) in target.iter_mut().zip(block) {
                *sum ^= x;
            }
        }
    }
}
