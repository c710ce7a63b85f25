//! The matrix inverse, by building up the span of the columns.
//!
//! Each column is brought in one after another. What is kept beside each
//! vector of the span is the way it is made from the matrix's columns, so that
//! in the end the ways to the unit vectors are the inverse's columns.

use crate::blocks::{add_multiple, scale};
use crate::field;

/// A vector of the span and the factors by which the columns make it.
struct Member {
    place: usize,
    vector: Vec<u8>,
    factors: Vec<u8>,
}

/// Members with 01 at their own place and 00 at all other members' places.
struct Span {
    members: Vec<Member>,
}

impl Span {
    fn new() -> Span {
        Span {
            members: Vec::new(),
        }
    }

    /// Takes away from the vector all that the members can make at their places.
    fn reduce(&self, vector: &mut [u8], factors: &mut [u8]) {
        for member in &self.members {
            let amount = vector[member.place];
            add_multiple(vector, &member.vector, amount);
            add_multiple(factors, &member.factors, amount);
        }
    }

    /// Brings in a vector; false if it is a sum of multiples of those before.
    fn insert(&mut self, mut vector: Vec<u8>, mut factors: Vec<u8>) -> bool {
        self.reduce(&mut vector, &mut factors);
        let Some(place) = vector.iter().position(|&v| v != 0) else {
            return false;
        };
        let factor = field::inv(vector[place]);
        scale(&mut vector, factor);
        scale(&mut factors, factor);
        let member = Member {
            place,
            vector,
            factors,
        };
        self.clear_place(&member);
        self.members.push(member);
        true
    }

    /// Makes the other members 00 at the new member's place.
    fn clear_place(&mut self, new: &Member) {
        for old in &mut self.members {
            let amount = old.vector[new.place];
            add_multiple(&mut old.vector, &new.vector, amount);
            add_multiple(&mut old.factors, &new.factors, amount);
        }
    }
}

/// Column `c` (from 0) of a matrix stored by rows.
fn column(side: usize, matrix: &[u8], c: usize) -> Vec<u8> {
    (0..side).map(|row| matrix[row * side + c]).collect()
}

/// The vector of `side` bytes with 01 at one place.
fn unit(side: usize, place: usize) -> Vec<u8> {
    (0..side).map(|i| u8::from(i == place)).collect()
}

/// The span of all columns, or the first column (from 0) that adds nothing.
fn span_of_columns(side: usize, matrix: &[u8]) -> Result<Span, usize> {
    let mut span = Span::new();
    for c in 0..side {
        if !span.insert(column(side, matrix, c), unit(side, c)) {
            return Err(c);
        }
    }
    Ok(span)
}

/// The matrix inverse with its questions 16, 6, 15. The column number comes
/// with 15 only: the first column that is a sum of multiples of those before it
/// (request 2026-05).
pub fn inverse(side: u64, matrix: &[u8], out: &mut [u8]) -> (u64, Option<u64>) {
    if !(1..=32).contains(&side) {
        return (16, None);
    }
    let s = side as usize;
    if matrix.len() != s * s || out.len() != s * s {
        return (6, None);
    }
    match span_of_columns(s, matrix) {
        Err(c) => (15, Some(c as u64 + 1)),
        Ok(span) => {
            write_inverse(s, &span, out);
            (0, None)
        }
    }
}

/// Each member is now a unit vector; its factors are a column of the inverse.
fn write_inverse(side: usize, span: &Span, out: &mut [u8]) {
    for member in &span.members {
        for (row, factor) in member.factors.iter().enumerate() {
            out[row * side + member.place] = *factor;
        }
    }
}

#[cfg(test)]
mod tests {
    use super::*;

    fn product(side: usize, a: &[u8], b: &[u8]) -> Vec<u8> {
        let mut out = vec![0; side * side];
        for row in 0..side {
            for middle in 0..side {
                let target = &mut out[row * side..(row + 1) * side];
                let source = &b[middle * side..(middle + 1) * side];
                add_multiple(target, source, a[row * side + middle]);
            }
        }
        out
    }

    fn identity(side: usize) -> Vec<u8> {
        (0..side).flat_map(|row| unit(side, row)).collect()
    }

    /// Bytes without a plain pattern, from a short rule of their own.
    fn bytes(count: usize, seed: u32) -> Vec<u8> {
        let mut state = seed.wrapping_mul(2_654_435_761).wrapping_add(12_345);
        let mut next = || {
            state ^= state << 13;
            state ^= state >> 17;
            state ^= state << 5;
            (state >> 11) as u8
        };
        (0..count).map(|_| next()).collect()
    }

    /// Is the vector a sum of multiples of the columns? By trying every multiple.
    fn is_sum(vector: &[u8], columns: &[Vec<u8>]) -> bool {
        let Some((last, others)) = columns.split_last() else {
            return vector.iter().all(|&v| v == 0);
        };
        (0..=255).any(|factor| {
            let mut rest = vector.to_vec();
            add_multiple(&mut rest, last, factor);
            is_sum(&rest, others)
        })
    }

    /// The first column (from 1) that is a sum of multiples of those before it.
    fn first_sum(side: usize, matrix: &[u8]) -> Option<u64> {
        let columns: Vec<Vec<u8>> = (0..side).map(|c| column(side, matrix, c)).collect();
        let found = (0..side).find(|&c| is_sum(&columns[c], &columns[..c]));
        found.map(|c| c as u64 + 1)
    }

    /// Does the matrix take some vector of two bytes, not all 00, to all 00?
    fn kills_some_pair(matrix: &[u8]) -> bool {
        let image = |u: u8, v: u8, row: usize| {
            field::mul(matrix[2 * row], u) ^ field::mul(matrix[2 * row + 1], v)
        };
        (1..=65_535u32).any(|uv| {
            let (u, v) = ((uv >> 8) as u8, uv as u8);
            image(u, v, 0) == 0 && image(u, v, 1) == 0
        })
    }

    #[test]
    fn inverse_from_both_sides() {
        for side in 1..=32usize {
            for seed in 0..6 {
                let matrix = bytes(side * side, seed + 100 * side as u32);
                let mut out = vec![0xEE; side * side];
                if inverse(side as u64, &matrix, &mut out).0 == 0 {
                    assert_eq!(product(side, &matrix, &out), identity(side));
                    assert_eq!(product(side, &out, &matrix), identity(side));
                }
            }
        }
    }

    #[test]
    fn two_way_rule_by_trying_all_vectors() {
        for seed in 0..60 {
            let mut matrix = bytes(4, seed);
            if seed % 3 == 0 {
                matrix[2] = field::mul(matrix[0], seed as u8);
                matrix[3] = field::mul(matrix[1], seed as u8);
            }
            let (number, _) = inverse(2, &matrix, &mut [0; 4]);
            assert_eq!(number == 15, kills_some_pair(&matrix));
        }
    }

    #[test]
    fn a_refusal_writes_nothing() {
        let mut out = vec![9, 8, 7, 6];
        assert_eq!(inverse(2, &[0, 1, 0, 1], &mut out), (15, Some(1)));
        assert_eq!(inverse(2, &[1, 2, 3], &mut out), (6, None));
        assert_eq!(inverse(0, &[], &mut out), (16, None));
        assert_eq!(inverse(33, &[], &mut out), (16, None));
        assert_eq!(inverse(u64::MAX, &[], &mut out), (16, None));
        assert_eq!(inverse(1, &[1], &mut out), (6, None));
        assert_eq!(out, vec![9, 8, 7, 6]);
    }

    #[test]
    fn side_one() {
        let mut out = [5];
        assert_eq!(inverse(1, &[0], &mut out), (15, Some(1)));
        assert_eq!(out, [5]);
        assert_eq!(inverse(1, &[2], &mut out), (0, None));
        assert_eq!(out, [0x8E]);
    }

    /// By hand, from the words of request 2026-05.
    #[test]
    fn the_first_dependent_column() {
        let column = |side, matrix: &[u8]| inverse(side, matrix, &mut vec![0; matrix.len()]).1;
        assert_eq!(column(2, &[1, 1, 1, 1]), Some(2));
        assert_eq!(column(2, &[0, 1, 0, 1]), Some(1));
        assert_eq!(column(2, &[0, 0, 0, 0]), Some(1));
        assert_eq!(column(2, &[2, 0, 1, 0]), Some(2));
        assert_eq!(column(3, &[1, 0, 0, 0, 0, 1, 0, 0, 1]), Some(2));
        assert_eq!(column(3, &[1, 0, 1, 0, 1, 1, 0, 0, 0]), Some(3));
        assert_eq!(column(3, &[1, 1, 1, 1, 1, 1, 1, 1, 1]), Some(2));
        assert_eq!(column(3, &[0, 1, 1, 0, 1, 1, 0, 0, 0]), Some(1));
        assert_eq!(column(3, &[1, 1, 0, 1, 1, 0, 1, 1, 0]), Some(2));
        let sum_then_copy = [1, 0, 1, 1, 0, 1, 1, 0, 0, 0, 0, 0, 0, 0, 0, 0];
        assert_eq!(column(4, &sum_then_copy), Some(3));
        assert_eq!(column(2, &[1, 1, 0, 1]), None);
    }

    #[test]
    fn the_column_by_trying_all_multiples() {
        let entries = [0, 1, 2, 0x1D];
        for index in 0..256 {
            let entry = |place: u32| entries[(index >> (2 * place)) & 3];
            let matrix: Vec<u8> = (0..4).map(entry).collect();
            let (_, found) = inverse(2, &matrix, &mut [0; 4]);
            assert_eq!(found, first_sum(2, &matrix), "{matrix:x?}");
        }
        for seed in 0..12 {
            let mut matrix = bytes(9, 700 + seed);
            for row in matrix.chunks_exact_mut(3) {
                match seed % 3 {
                    0 => row[0] = 0,
                    1 => row[1] = field::mul(seed as u8, row[0]),
                    _ => row[2] = field::mul(seed as u8, row[0]) ^ row[1],
                }
            }
            let (_, found) = inverse(3, &matrix, &mut [0; 9]);
            assert_eq!(found, first_sum(3, &matrix), "{matrix:x?}");
        }
    }

    /// Columns with 00 above the diagonal and not on it are no sums of multiples of
    /// those before them; one that is follows, and then any: bytes, copies, 00.
    #[test]
    fn the_column_by_construction_at_every_place() {
        for side in 1..=32usize {
            for place in 0..side {
                let mut matrix = bytes(side * side, (100 * side + place) as u32);
                let factors = bytes(place, 7 + place as u32);
                for row in 0..side {
                    let line = &mut matrix[row * side..(row + 1) * side];
                    for (c, entry) in line[..place].iter_mut().enumerate() {
                        *entry = match row.cmp(&c) {
                            std::cmp::Ordering::Less => 0,
                            std::cmp::Ordering::Equal => *entry | 1,
                            std::cmp::Ordering::Greater => *entry,
                        };
                    }
                    let terms = line[..place].iter().zip(&factors);
                    line[place] = terms.fold(0, |sum, (&e, &f)| sum ^ field::mul(e, f));
                    for c in place + 1..side {
                        match c % 3 {
                            0 => line[c] = line[c - 1],
                            1 => line[c] = 0,
                            _ => {}
                        }
                    }
                }
                let answer = inverse(side as u64, &matrix, &mut vec![0; side * side]);
                assert_eq!(answer, (15, Some(place as u64 + 1)));
            }
        }
    }
}
