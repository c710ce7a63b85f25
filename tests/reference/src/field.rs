//! The field: bytes as polynomials over {0,1}, modulo z^8 + z^4 + z^3 + z^2 + 1.

/// What is left of the modulus (11D) when its highest power is taken away.
const REST: u8 = 0x1D;

/// The sum, which is also the difference.
pub fn add(a: u8, b: u8) -> u8 {
    a ^ b
}

/// The product with 02: one shift, and one reduction if a bit fell out.
#[inline]
fn double(a: u8) -> u8 {
    let fell_out = 0u8.wrapping_sub(a >> 7);
    (a << 1) ^ (REST & fell_out)
}

/// The product by shift and reduce, from the highest bit of `b` down.
#[inline]
pub fn mul(a: u8, b: u8) -> u8 {
    let mut product = 0;
    for bit in (0..8).rev() {
        let taken = 0u8.wrapping_sub((b >> bit) & 1);
        product = double(product) ^ (a & taken);
    }
    product
}

/// The power with exponent `e`; the power 0 of any value is 01.
pub fn pow(a: u8, e: u64) -> u8 {
    let mut result = 1;
    let mut square = a;
    let mut left = e;
    while left > 0 {
        if left & 1 == 1 {
            result = mul(result, square);
        }
        square = mul(square, square);
        left >>= 1;
    }
    result
}

/// The inverse, as the power 254; so the inverse of 00 is 00.
pub fn inv(a: u8) -> u8 {
    pow(a, 254)
}

#[cfg(test)]
mod tests {
    use super::*;

    /// The product in two steps: the long product, then the long division.
    fn long_product(a: u8, b: u8) -> u8 {
        let mut long: u32 = 0;
        for bit in 0..8 {
            if (b >> bit) & 1 == 1 {
                long ^= u32::from(a) << bit;
            }
        }
        for bit in (8..16).rev() {
            if (long >> bit) & 1 == 1 {
                long ^= 0x11D << (bit - 8);
            }
        }
        long as u8
    }

    #[test]
    fn products_agree_with_long_division() {
        for a in 0..=255 {
            for b in 0..=255 {
                assert_eq!(mul(a, b), long_product(a, b));
            }
        }
    }

    #[test]
    fn figures_of_the_document() {
        assert_eq!(mul(0x80, 0x02), 0x1D);
        assert_eq!(mul(0x10, 0x10), 0x1D);
        assert_eq!(mul(0x03, 0x03), 0x05);
        assert_eq!(inv(0x02), 0x8E);
        assert_eq!(pow(0x02, 8), 0x1D);
    }

    #[test]
    fn inverses_of_all_bytes() {
        assert_eq!(inv(0), 0);
        for a in 1..=255 {
            assert_eq!(mul(a, inv(a)), 1);
        }
    }

    #[test]
    fn powers_by_repeated_products() {
        for a in 0..=255 {
            let mut expected = 1;
            for e in 0..600 {
                assert_eq!(pow(a, e), expected);
                expected = mul(expected, a);
            }
        }
    }

    #[test]
    fn two_has_order_255() {
        let first = (1..=255).find(|&e| pow(2, e) == 1);
        assert_eq!(first, Some(255));
        assert_eq!(pow(2, u64::MAX), pow(2, u64::MAX % 255));
    }

    #[test]
    fn sums_are_exclusive_or() {
        assert_eq!(add(0x0F, 0x3C), 0x33);
        assert_eq!(add(0xA5, 0xA5), 0);
    }
}
