//! Which traps to blame (request 2026-06): rows worked by hand, and the search
//! against the pairs nearest to a record, found by trying all pairs.

use reference::blame::serves;
use reference::corpus::{any_shape, shapes, tight, Rng};
use reference::{check, field, setup, Arrangement, Blame, Shape};

fn blame(a: &Arrangement, record: &[u8], budget: u64) -> Blame {
    let (number, blame) = check(a, record, budget);
    assert_eq!(number, 0);
    blame.unwrap()
}

/// The rows of one record, for the budgets 0, 1, .. : set, tried, distance.
fn test_rows(a: Arrangement, record: &[u8], rows: &[(u32, u64, u64)]) {
    for (budget, &(set, tried, distance)) in (0..).zip(rows) {
        let expected = Blame {
            set,
            tried,
            distance,
        };
        assert_eq!(blame(&a, record, budget), expected, "{record:x?} {budget}");
    }
    // A larger budget is of no use.
    let last = rows.len() as u64 - 1;
    for budget in [last + 1, 1 << 40, u64::MAX] {
        assert_eq!(blame(&a, record, budget), blame(&a, record, last));
    }
}

/// q = 1: a block is the message times the point. 01 01 01 agrees with no message in
/// two traps, so that a set of two is the smallest.
#[test]
fn rows_of_three_traps_that_all_differ() {
    let rows = [
        (0b110, 0, 2),
        (0b110, 1, 1),
        (0b110, 2, 1),
        (0b110, 3, 1),
        (0b110, 4, 0),
        (0b011, 5, 0),
    ];
    test_rows(Arrangement::new(1, 1, 3, 3, 1), &[1, 1, 1], &rows);
}

/// 06 0A 0C is a record. With n - q = 1 any set of one trap serves, and the lowest is
/// found: trap 1, whichever is bad.
#[test]
fn rows_with_one_trap_to_spare() {
    let a = Arrangement::new(1, 2, 2, 3, 1);
    test_rows(a, &[0x06, 0x0A, 0x0C], &[(0b100, 0, 1), (0, 1, 0)]);
    let rows = [(0b100, 0, 1), (0b100, 1, 0), (0b001, 2, 0)];
    test_rows(a, &[0xF9, 0x0A, 0x0C], &rows);
    test_rows(a, &[0x06, 0xF5, 0x0C], &rows);
    test_rows(a, &[0x06, 0x0A, 0xF3], &rows);
}

/// n = q: no trap is ever to blame, and with budget 0 nothing is left to try.
#[test]
fn rows_with_no_trap_to_spare() {
    for a in [(3, 3, 3, 3), (1, 3, 1, 3), (2, 3, 2, 3)] {
        let (k, r, w, n) = a;
        let a = Arrangement::new(k, r, w, n, 1);
        test_rows(a, &[0xF9, 0x0A, 0x0C], &[(0, 0, 0), (0, 1, 0)]);
    }
}

/// Blocks of two bytes, q = 1. The first place is bad at trap 3, the second at trap 1:
/// the set has both.
#[test]
fn rows_of_two_places() {
    let a = Arrangement::new(1, 1, 4, 4, 2);
    let sound = [[0x07, 1], [0x0E, 2], [0x09, 3], [0x1C, 4]].concat();
    test_rows(a, &sound, &[(0b1110, 0, 3), (0, 1, 0)]);
    let mut record = sound;
    record[1] ^= 0x80;
    record[4] ^= 0x01;
    let rows = [
        (0b1110, 0, 3),
        (0b1110, 1, 2),
        (0b1110, 2, 2),
        (0b1110, 3, 2),
        (0b1110, 4, 2),
        (0b1110, 5, 1),
        (0b1110, 6, 1),
        (0b0101, 7, 0),
    ];
    test_rows(a, &record, &rows);
}

fn named(set: u32, trap: u64) -> bool {
    (set >> (trap - 1)) & 1 == 1
}

/// The document's sum: the byte that parts of one byte each give to a trap.
fn sum(parts: &[u8], trap: u64) -> u8 {
    let terms = (1..).zip(parts);
    let products = terms.map(|(e, &part)| field::mul(part, field::pow(trap as u8, e)));
    products.fold(0, field::add)
}

/// The traps in which a pair, of one or two bytes, differs from a record, for each
/// pair.
fn differing(q: u64, record: &[u8]) -> Vec<u32> {
    let pairs = 0..1u32 << (8 * q);
    let set = |pair: u32| {
        let parts = &pair.to_le_bytes()[..q as usize];
        let traps = (1..).zip(record);
        let differ = traps.filter(|&(trap, &byte)| sum(parts, trap) != byte);
        differ.fold(0, |set, (trap, _)| set | 1 << (trap - 1))
    };
    pairs.map(set).collect()
}

/// All sets of traps of 1..n in the order in which they are tried.
fn in_order(n: u64) -> Vec<u32> {
    let mut sets: Vec<u32> = (0..1 << n).collect();
    sets.sort_by_key(|set| (set.count_ones(), *set));
    sets
}

/// Holds a record to all pairs: sets serve if the traps in which some pair differs are
/// among them; the first of the traps of all pairs is found; and so for each budget.
fn test_by_all_pairs(shape: Shape, record: &[u8]) {
    let (n, q) = (shape.n, shape.q());
    let a = shape.with(1);
    let differing = differing(q, record);
    let sets = in_order(n);
    let good = |set: &u32| differing.iter().any(|traps| traps & !set == 0);
    for set in &sets {
        assert_eq!(serves(&a, record, *set), good(set));
    }
    let nearest = differing.iter().map(|set| (set.count_ones(), *set)).min();
    let (size, set) = nearest.unwrap();
    let tried = sets.iter().position(|other| *other == set).unwrap() as u64 + 1;
    assert!(u64::from(size) <= n - q);
    let stopped = (q..n).map(|bit| 1 << bit).sum();
    for budget in 0..=tried + 2 {
        let next = sets.get(budget as usize).map(|set| set.count_ones());
        let expected = if budget < tried {
            Blame {
                set: stopped,
                tried: budget,
                distance: n - q - u64::from(next.unwrap()),
            }
        } else {
            Blame {
                set,
                tried,
                distance: 0,
            }
        };
        assert_eq!(blame(&a, record, budget), expected);
    }
}

/// A record of a set-up, and the same with other bytes in some traps.
fn damaged(rng: &mut Rng, a: &Arrangement, traps: u32) -> (Vec<u8>, Vec<u8>) {
    let Shape { k, w, n, .. } = a.shape;
    let (message, slack) = (rng.bytes(k * a.b), rng.bytes((n - w) * a.b));
    let mut record = vec![0; (n * a.b) as usize];
    let mut serials = vec![0; n as usize];
    assert_eq!(setup(a, &message, &slack, &mut record, &mut serials), 0);
    let mut other = record.clone();
    for trap in (1..=n).filter(|&trap| named(traps, trap)) {
        let place = (trap - 1) * a.b + rng.below(a.b);
        other[place as usize] ^= rng.range(1, 255) as u8;
    }
    (record, other)
}

#[test]
fn the_nearest_of_all_pairs() {
    let mut rng = Rng::new(31);
    for n in 1..=6 {
        for shape in shapes(n).filter(|shape| shape.q() == 1) {
            for traps in 0..1 << n {
                let (_, record) = damaged(&mut rng, &shape.with(1), traps);
                test_by_all_pairs(shape, &record);
            }
            test_by_all_pairs(shape, &rng.bytes(n));
        }
        let Some(shape) = (n > 1).then(|| tight(1, n - 1, n)) else {
            continue;
        };
        for _ in 0..6 {
            let traps = rng.word() as u32;
            let (_, record) = damaged(&mut rng, &shape.with(1), traps);
            test_by_all_pairs(shape, &record);
        }
    }
}

/// Traps where the records differ.
fn difference_of(a: &Arrangement, one: &[u8], two: &[u8]) -> u32 {
    let b = a.b as usize;
    let blocks = one.chunks(b).zip(two.chunks(b)).enumerate();
    let differ = blocks.filter(|(_, (one, two))| one != two);
    differ.fold(0, |set, (bit, _)| set | 1 << bit)
}

/// Up to (n - q)/2 bad traps are named exactly.
#[test]
fn half_of_the_spare_traps() {
    let mut rng = Rng::new(32);
    let mut sizes = [0; 4];
    let mut test = |rng: &mut Rng, shape: Shape, traps: u32| {
        let a = shape.with(rng.range(1, 3));
        let (record, other) = damaged(rng, &a, traps);
        assert_eq!(difference_of(&a, &record, &other), traps);
        let blame = blame(&a, &other, u64::MAX);
        assert_eq!((blame.set, blame.distance), (traps, 0), "{shape:?}");
        sizes[traps.count_ones() as usize] += 1;
    };
    for shape in (1..=7).flat_map(shapes) {
        for traps in 0..1u32 << shape.n {
            if 2 * u64::from(traps.count_ones()) <= shape.n - shape.q() {
                test(&mut rng, shape, traps);
            }
        }
    }
    for _ in 0..300 {
        let shape = any_shape(&mut rng, 32);
        let most = ((shape.n - shape.q()) / 2).min(2);
        let size = rng.range(0, most);
        let traps = rng.choose(u32::MAX >> (32 - shape.n), size);
        test(&mut rng, shape, traps);
    }
    test(&mut rng, tight(4, 28, 32), 0b1110);
    assert!(sizes.iter().all(|&count| count > 0), "{sizes:?}");
}

/// All sets of up to three of 32 traps do not serve for any bytes; the budget ends
/// the search where it stands.
#[test]
fn a_budget_among_32_traps() {
    let mut rng = Rng::new(33);
    let a = Arrangement::new(4, 20, 16, 32, 1);
    let record = rng.bytes(32);
    for (budget, size) in [(0, 0), (1, 1), (32, 1), (33, 2), (528, 2), (529, 3)] {
        let expected = Blame {
            set: 0xFFF0_0000,
            tried: budget,
            distance: 12 - size,
        };
        assert_eq!(blame(&a, &record, budget), expected);
    }
}
