//! The matrix inverse, with the column that goes with 15.

use library::{agree, spoil, Answers, Library};
use reference::cases::Case;
use reference::corpus::Rng;
use reference::field;
use std::cmp::Ordering;

/// A matrix by rows, from its entries.
fn matrix(side: u64, entry: impl Fn(u64, u64) -> u8) -> Vec<u8> {
    let rows = 0..side;
    rows.flat_map(|row| (0..side).map(move |column| (row, column)))
        .map(|(row, column)| entry(row, column))
        .collect()
}

fn case(rng: &mut Rng, side: u64, matrix: Vec<u8>) -> Case {
    let out = rng.bytes(side * side);
    Case::Inverse { side, matrix, out }
}

/// Makes one column a sum of multiples of some others.
fn make_dependent(rng: &mut Rng, side: u64, matrix: &mut [u8]) {
    let made = rng.below(side);
    let factors = rng.bytes(side);
    let taken = rng.word();
    for row in 0..side {
        let at = |column: u64| (row * side + column) as usize;
        let others = (0..side).filter(|&c| c != made && (taken >> c) & 1 == 1);
        let sum = others.fold(0, |sum, c| {
            field::add(sum, field::mul(factors[c as usize], matrix[at(c)]))
        });
        matrix[at(made)] = sum;
    }
}

/// The transpose, whose rows are dependent where the columns were.
fn transposed(side: u64, from: &[u8]) -> Vec<u8> {
    matrix(side, |row, column| from[(column * side + row) as usize])
}

#[test]
fn random_matrices() {
    let mut rng = Rng::new(401);
    for side in 1..=32 {
        for _ in 0..20 {
            let bytes = rng.bytes(side * side);
            agree(&case(&mut rng, side, bytes));
        }
    }
}

#[test]
fn matrices_without_an_inverse() {
    let mut rng = Rng::new(402);
    for side in 1..=32 {
        for times in 1..=12 {
            let mut bytes = rng.bytes(side * side);
            for _ in 0..times {
                make_dependent(&mut rng, side, &mut bytes);
            }
            let other = transposed(side, &bytes);
            assert_eq!(agree(&case(&mut rng, side, bytes)), 15);
            assert_eq!(agree(&case(&mut rng, side, other)), 15);
        }
        let zeros = vec![0; (side * side) as usize];
        assert_eq!(agree(&case(&mut rng, side, zeros)), 15);
    }
}

/// Entries that are mostly 00, so that rows have to be searched for.
#[test]
fn sparse_matrices() {
    let mut rng = Rng::new(403);
    let mut answers = Answers::default();
    for side in 1..=32 {
        for percent in [5, 10, 20, 40] {
            for _ in 0..10 {
                let mut bytes = rng.bytes(side * side);
                for byte in &mut bytes {
                    *byte *= u8::from(rng.chance(percent));
                }
                answers.agree(&case(&mut rng, side, bytes));
            }
        }
    }
    answers.test("sparse", &[0, 15]);
}

#[test]
fn matrices_of_known_forms() {
    let mut rng = Rng::new(404);
    for side in 1..=32 {
        let forms = [
            matrix(side, |row, column| u8::from(row == column)),
            matrix(side, |row, column| u8::from(row + column + 1 == side)),
            matrix(side, |row, column| u8::from((row + 1) % side == column)),
            matrix(side, |row, column| u8::from(row <= column)),
            matrix(side, |row, column| u8::from(row >= column)),
            matrix(side, |row, column| field::pow(row as u8 + 1, column + 1)),
            matrix(side, |row, column| field::pow(column as u8 + 1, row)),
        ];
        for form in forms {
            assert_eq!(agree(&case(&mut rng, side, form)), 0);
        }
    }
}

/// By hand, from the words of request 2026-05.
#[test]
fn the_first_dependent_column() {
    let mut rng = Rng::new(409);
    let rows: [(u64, &[u8], u64); 5] = [
        (1, &[0], 1),
        (2, &[1, 1, 1, 1], 2),
        (2, &[0, 1, 0, 1], 1),
        (3, &[1, 0, 0, 0, 0, 1, 0, 0, 1], 2),
        (3, &[1, 0, 1, 0, 0, 0, 0, 0, 0], 2),
    ];
    for (side, bytes, column) in rows {
        let case = case(&mut rng, side, bytes.to_vec());
        assert_eq!(agree(&case), 15);
        assert_eq!(case.run(&Library).column, Some(column));
    }
}

/// The columns before `place` (from 0) have 00 above the diagonal and not on it, so that
/// none is a sum of multiples of those before it; that at `place` is, and behind it
/// are any bytes, copies and 00. The rows are then turned by some places, which alters
/// no such sum.
#[test]
fn the_first_dependent_column_at_every_place() {
    let mut rng = Rng::new(407);
    for side in 1..=32 {
        for place in 0..side {
            let (bytes, factors) = (rng.bytes(side * side), rng.bytes(side));
            let at = |row: u64, column: u64| bytes[(row * side + column) as usize];
            let lower = |row: u64, column: u64| match row.cmp(&column) {
                Ordering::Less => 0,
                Ordering::Equal => at(row, column).max(1),
                Ordering::Greater => at(row, column),
            };
            let sum = |row: u64| {
                (0..place).fold(0, |sum, c| {
                    field::add(sum, field::mul(factors[c as usize], lower(row, c)))
                })
            };
            let step = rng.below(side);
            let bytes = matrix(side, |row, column| {
                let row = (row + step) % side;
                match column.cmp(&place) {
                    Ordering::Less => lower(row, column),
                    Ordering::Equal => sum(row),
                    Ordering::Greater => match column % 3 {
                        0 if column > place + 1 => at(row, column - 1),
                        1 => 0,
                        _ => at(row, column),
                    },
                }
            });
            let case = case(&mut rng, side, bytes);
            assert_eq!(agree(&case), 15);
            assert_eq!(case.run(&Library).column, Some(place + 1));
        }
    }
}

/// Two who test one matrix are told one column, whatever their buffers hold.
#[test]
fn the_column_depends_on_the_matrix_alone() {
    let mut rng = Rng::new(408);
    for side in 1..=32 {
        for times in 1..=12 {
            let mut bytes = rng.bytes(side * side);
            for _ in 0..times {
                make_dependent(&mut rng, side, &mut bytes);
            }
            let one = case(&mut rng, side, bytes.clone());
            let other = case(&mut rng, side, bytes);
            assert_eq!([agree(&one), agree(&other)], [15, 15]);
            assert_eq!(one.run(&Library).column, other.run(&Library).column);
        }
    }
}

/// Every matrix of side 1, and all of sides 2 and 3 with entries from a few.
#[test]
fn small_sides() {
    let mut rng = Rng::new(405);
    for entry in 0..=255 {
        agree(&case(&mut rng, 1, vec![entry]));
    }
    let entries = [0, 1, 2, 3, 0x1D, 0x80, 0xFF];
    for a in entries {
        for b in entries {
            for c in entries {
                for d in entries {
                    agree(&case(&mut rng, 2, vec![a, b, c, d]));
                }
            }
        }
    }
    for index in 0..3u32.pow(9) {
        let digits = (0..9).map(|place| (index / 3u32.pow(place) % 3) as u8);
        let bytes = digits.collect();
        agree(&case(&mut rng, 3, bytes));
    }
}

#[test]
fn hostile_arguments() {
    let mut rng = Rng::new(406);
    let mut answers = Answers::default();
    for _ in 0..5000 {
        let side = rng.range(1, 9);
        let mut bytes = rng.bytes(side * side);
        if rng.chance(20) {
            make_dependent(&mut rng, side, &mut bytes);
        }
        let mut case = case(&mut rng, side, bytes);
        for _ in 0..rng.range(1, 2) {
            spoil(&mut rng, &mut case);
        }
        answers.agree(&case);
    }
    answers.test("inverse", &[0, 6, 15, 16]);
    for side in [0, 33, 1 << 32, (1 << 32) + 2, u64::MAX] {
        let bytes = rng.bytes(4);
        let out = rng.bytes(4);
        let matrix = bytes;
        assert_eq!(agree(&Case::Inverse { side, matrix, out }), 16);
    }
}
