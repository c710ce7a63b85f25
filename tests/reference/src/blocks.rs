//! Blocks of bytes: the same field work at each byte place.

use crate::field;

/// One block or one part, B bytes.
pub type Block = Vec<u8>;

/// Cuts bytes into parts of `size` bytes each.
pub fn split(bytes: &[u8], size: usize) -> Vec<Block> {
    bytes.chunks_exact(size).map(<[u8]>::to_vec).collect()
}

/// Adds `source` to `target`, place by place.
pub fn add_to(target: &mut [u8], source: &[u8]) {
    for (t, s) in target.iter_mut().zip(source) {
        *t = field::add(*t, *s);
    }
}

/// Multiplies each byte by `factor`.
pub fn scale(target: &mut [u8], factor: u8) {
    for t in target.iter_mut() {
        *t = field::mul(*t, factor);
    }
}

/// Adds `factor` times `source` to `target`.
pub fn add_multiple(target: &mut [u8], source: &[u8], factor: u8) {
    for (t, s) in target.iter_mut().zip(source) {
        *t = field::add(*t, field::mul(*s, factor));
    }
}

#[cfg(test)]
mod tests {
    use super::*;

    #[test]
    fn parts_are_in_order() {
        assert_eq!(split(&[1, 2, 3, 4], 2), vec![vec![1, 2], vec![3, 4]]);
        assert!(split(&[], 5).is_empty());
    }

    #[test]
    fn multiples_are_added() {
        let mut target = vec![1, 0x80];
        add_multiple(&mut target, &[3, 0x80], 2);
        assert_eq!(target, vec![7, 0x9D]);
        scale(&mut target, 0);
        assert_eq!(target, vec![0, 0]);
    }
}
