//! jerasure over GF-Complete, with its field of 8 bits.

use crate::peer::Peer;
use std::ffi::{c_char, c_int};

const W: c_int = 8;

extern "C" {
    fn galois_single_multiply(a: c_int, b: c_int, w: c_int) -> c_int;
    fn galois_w08_region_multiply(
        region: *mut c_char,
        by: c_int,
        len: c_int,
        out: *mut c_char,
        add: c_int,
    );
    fn jerasure_invert_matrix(matrix: *mut c_int, out: *mut c_int, rows: c_int, w: c_int) -> c_int;
    fn jerasure_matrix_encode(
        k: c_int,
        m: c_int,
        w: c_int,
        matrix: *mut c_int,
        data: *mut *mut c_char,
        coding: *mut *mut c_char,
        len: c_int,
    );
}

pub struct Jerasure;

impl Peer for Jerasure {
    type Symbol = c_int;

    fn multiply(&self, x: c_int, y: c_int) -> c_int {
        // SAFETY: a function of two numbers.
        unsafe { galois_single_multiply(x, y, W) }
    }

    fn invert(&mut self, side: usize, matrix: &mut [c_int], out: &mut [c_int]) {
        assert!(matrix.len() == side * side && out.len() == side * side);
        let (matrix, out) = (matrix.as_mut_ptr(), out.as_mut_ptr());
        // SAFETY: both have this side.
        let failure = unsafe { jerasure_invert_matrix(matrix, out, side as c_int, W) };
        assert!(failure == 0, "an inverse");
    }

    unsafe fn write(
        &mut self,
        b: usize,
        coeffs: &[c_int],
        sources: &[*const u8],
        targets: &[*mut u8],
    ) {
        // SAFETY: the pointers are to blocks by this function's own condition.
        // Coefficients and sources are only read.
        unsafe {
            jerasure_matrix_encode(
                sources.len() as c_int,
                targets.len() as c_int,
                W,
                coeffs.as_ptr().cast_mut(),
                sources.as_ptr().cast_mut().cast(),
                targets.as_ptr().cast_mut().cast(),
                b as c_int,
            );
        }
    }

    unsafe fn add(
        &mut self,
        b: usize,
        coeffs: &[c_int],
        sources: &[*const u8],
        targets: &[*mut u8],
    ) {
        for (row, &target) in coeffs.chunks_exact(sources.len()).zip(targets) {
            for (&c, &source) in row.iter().zip(sources) {
                let source = source.cast_mut().cast();
                // SAFETY: two blocks, by this function's own condition.
                unsafe { galois_w08_region_multiply(source, c, b as c_int, target.cast(), 1) }
            }
        }
    }
}
