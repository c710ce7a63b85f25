//! Each call on accepted, edge and hostile arguments, held against the reference.

use library::{agree, any_arrangement, right, shapes, spoil, Answers, Call};
use reference::cases::Case;
use reference::corpus::{tight, Rng};
use reference::Arrangement;

/// Cases of one call, of which most have one or two arguments altered.
fn random(call: Call, seed: u64) {
    let mut rng = Rng::new(seed);
    let mut answers = Answers::default();
    for _ in 0..20_000 {
        let a = any_arrangement(&mut rng);
        let mut case = right(&mut rng, call, a);
        for _ in 0..rng.pick(&[0, 1, 1, 1, 2]) {
            spoil(&mut rng, &mut case);
        }
        answers.agree(&case);
    }
    answers.test(call, call.numbers());
}

#[test]
fn random_setups() {
    random(Call::Setup, 101);
}

#[test]
fn random_readings() {
    random(Call::Reading, 102);
}

#[test]
fn random_differences() {
    random(Call::Difference, 103);
}

#[test]
fn random_changes() {
    random(Call::Change, 104);
}

#[test]
fn random_rebuilds() {
    random(Call::Rebuild, 105);
}

#[test]
fn random_rearrangements() {
    random(Call::Rearrangement, 106);
}

#[test]
fn random_checks() {
    random(Call::Check, 107);
}

#[test]
fn random_views() {
    random(Call::View, 108);
}

/// Every shape there is, tight and loose, so also k = r, k = w, w = n, r = n and
/// n = 32.
#[test]
fn every_shape() {
    let mut rng = Rng::new(201);
    let mut count = 0;
    for shape in shapes(32) {
        for call in Call::ALL {
            let b = rng.range(1, 3);
            let case = right(&mut rng, call, shape.with(b));
            assert_eq!(agree(&case), 0);
        }
        count += 1;
    }
    assert_eq!(count, 52_360);
}

/// Every block size there is.
#[test]
fn every_block_size() {
    let mut rng = Rng::new(202);
    for b in 1..=1024 {
        for call in Call::ALL {
            let case = right(&mut rng, call, tight(2, 3, 4).with(b));
            assert_eq!(agree(&case), 0);
        }
    }
}

/// Numbers outside of every bound, one at a time and all together.
#[test]
fn hostile_numbers() {
    let mut rng = Rng::new(203);
    let most = u64::MAX;
    for call in Call::ALL {
        let mut case = right(&mut rng, call, Arrangement::new(2, 4, 3, 5, 2));
        for (numbers, expected) in [
            ([2, 4, 3, 0, 2], 1),
            ([2, 4, 3, 33, 2], 1),
            ([2, 4, 3, most, 2], 1),
            ([most, most, most, most, most], 1),
            ([0, 0, 0, 0, 0], 1),
            ([2, 6, 3, 5, 2], 2),
            ([2, 4, 6, 5, 2], 2),
            ([2, most, 3, 5, 2], 2),
            ([2, 4, most, 5, 2], 2),
            ([0, most, most, 32, 0], 2),
            ([0, 4, 3, 5, 2], 3),
            ([5, 4, 5, 5, 2], 3),
            ([4, 5, 3, 5, 2], 3),
            ([most, 4, 3, 5, 2], 3),
            ([1, 0, 5, 5, 2], 3),
            ([2, 3, 3, 5, 2], 4),
            ([3, 4, 3, 5, 2], 4),
            ([2, 4, 3, 5, 0], 5),
            ([2, 4, 3, 5, 1025], 5),
            ([2, 4, 3, 5, most], 5),
            ([2, 4, 3, 5, 1 << 63], 5),
            ([2, 4, 3, 5, 3], 6),
            ([2, 4, 3, 5, 2], 0),
        ] {
            let [k, r, w, n, b] = numbers;
            set_arrangement(&mut case, Arrangement::new(k, r, w, n, b));
            assert_eq!(agree(&case), expected, "{numbers:?}");
        }
    }
}

fn set_arrangement(case: &mut Case, to: Arrangement) {
    match case {
        Case::Inverse { .. } => {}
        Case::Setup { a, .. }
        | Case::Reading { a, .. }
        | Case::Difference { a, .. }
        | Case::Change { a, .. }
        | Case::Rebuild { a, .. }
        | Case::Rearrangement { a, .. }
        | Case::Check { a, .. }
        | Case::View { a, .. } => *a = to,
    }
}

/// Every node number of one byte, at every n.
#[test]
fn every_view() {
    let mut rng = Rng::new(204);
    for n in 1..=32 {
        let a = tight(1, 1, n).with(2);
        let record = rng.bytes(2 * n);
        for trap in 0..=255 {
            let record = record.clone();
            let number = agree(&Case::View { a, record, trap });
            assert_eq!(number, if (1..=n).contains(&trap) { 0 } else { 10 });
        }
    }
}
