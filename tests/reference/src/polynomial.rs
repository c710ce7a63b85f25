//! Polynomials whose coefficients are blocks: values and interpolation.

use crate::blocks::{add_multiple, add_to, scale, Block};
use crate::field;

/// The value at `point` of the polynomial with these coefficients, the one of
/// power 0 first, by Horner's rule. No coefficients give all 00.
pub fn evaluate(coefficients: &[Block], point: u8, size: usize) -> Block {
    let mut value = vec![0; size];
    for coefficient in coefficients.iter().rev() {
        scale(&mut value, point);
        add_to(&mut value, coefficient);
    }
    value
}

/// The coefficients of the one polynomial of degree below the count of points
/// that takes these values. The points must differ from each other.
pub fn interpolate(points: &[u8], values: Vec<Block>) -> Vec<Block> {
    let mut work = values;
    divided_differences(points, &mut work);
    newton_to_powers(points, &mut work);
    work
}

/// Turns values into the coefficients of Newton's form, in place.
fn divided_differences(points: &[u8], work: &mut [Block]) {
    for step in 1..points.len() {
        for i in (step..points.len()).rev() {
            let gap = field::add(points[i], points[i - step]);
            let (before, from_i) = work.split_at_mut(i);
            add_to(&mut from_i[0], &before[i - 1]);
            scale(&mut from_i[0], field::inv(gap));
        }
    }
}

/// Turns the coefficients of Newton's form into those of the plain powers.
fn newton_to_powers(points: &[u8], work: &mut [Block]) {
    let count = points.len();
    for i in (0..count.saturating_sub(1)).rev() {
        for j in i..count - 1 {
            let (upto_j, above) = work.split_at_mut(j + 1);
            add_multiple(&mut upto_j[j], &above[0], points[i]);
        }
    }
}

#[cfg(test)]
mod tests {
    use super::*;

    /// Lagrange's formula at one byte place: the sum of the basis polynomials.
    fn lagrange(points: &[u8], values: &[u8]) -> Vec<u8> {
        let mut sum = vec![0; points.len()];
        for (i, &value) in values.iter().enumerate() {
            let basis = basis_polynomial(points, i);
            add_multiple(&mut sum, &basis, value);
        }
        sum
    }

    /// The polynomial that is 01 at point i and 00 at the others.
    fn basis_polynomial(points: &[u8], i: usize) -> Vec<u8> {
        let mut basis = vec![0; points.len()];
        basis[0] = 1;
        for (j, &point) in points.iter().enumerate() {
            if j != i {
                let below = basis.clone();
                basis.rotate_right(1);
                basis[0] = 0;
                add_multiple(&mut basis, &below, point);
                scale(&mut basis, field::inv(field::add(points[i], point)));
            }
        }
        basis
    }

    fn flat(blocks: &[Block]) -> Vec<u8> {
        blocks.iter().flatten().copied().collect()
    }

    #[test]
    fn newton_agrees_with_lagrange() {
        for count in 1..=32u8 {
            let points: Vec<u8> = (0..count).map(|i| 7 * i + 3).collect();
            let values: Vec<u8> = (0..count)
                .map(|i| field::pow(3, u64::from(i) * 11))
                .collect();
            let blocks = values.iter().map(|&v| vec![v]).collect();
            assert_eq!(
                flat(&interpolate(&points, blocks)),
                lagrange(&points, &values)
            );
        }
    }

    #[test]
    fn the_polynomial_takes_its_values() {
        let points = [1, 5, 9, 32, 17];
        let values: Vec<Block> = (0..5).map(|i| vec![i * 50, 255 - i, 7]).collect();
        let found = interpolate(&points, values.clone());
        for (point, value) in points.iter().zip(&values) {
            assert_eq!(&evaluate(&found, *point, 3), value);
        }
    }

    #[test]
    fn no_points_give_nothing() {
        assert!(interpolate(&[], Vec::new()).is_empty());
        assert_eq!(evaluate(&[], 9, 2), vec![0, 0]);
    }
}
