//! Shapes that pass the gate, and some that do not. A shape is tight if
//! r + w = k + n, and loose if r is larger: then R has traps to spare.

use crate::corpus::rng::Rng;
use crate::Shape;

/// The tight shape with these k, w and n.
pub fn tight(k: u64, w: u64, n: u64) -> Shape {
    Shape::new(k, k + n - w, w, n)
}

/// The tight shapes of n traps.
pub fn tight_shapes(n: u64) -> impl Iterator<Item = Shape> {
    (1..=n).flat_map(move |k| (k..=n).map(move |w| tight(k, w, n)))
}

/// The shapes that are looser than this one, by r alone.
pub fn looser(than: Shape) -> impl Iterator<Item = Shape> {
    (than.r + 1..=than.n).map(move |r| Shape { r, ..than })
}

/// All shapes of n traps that pass the gate.
pub fn shapes(n: u64) -> impl Iterator<Item = Shape> {
    tight_shapes(n).flat_map(|shape| std::iter::once(shape).chain(looser(shape)))
}

/// A shape that passes the gate; half of them are tight.
pub fn any_shape(rng: &mut Rng, most: u64) -> Shape {
    let n = rng.range(1, most);
    let k = rng.range(1, n);
    let w = rng.range(k, n);
    let least = tight(k, w, n);
    if rng.chance(50) {
        return least;
    }
    let r = rng.range(least.r, n);
    Shape { r, ..least }
}

/// A shape that questions 1 to 4 refuse, or 11 to 14 for a new one. The fourth
/// refuses by one: r + w = k + n - 1.
pub fn wrong_shape(rng: &mut Rng, good: Shape) -> Shape {
    let Shape { k, r, w, n } = good;
    match rng.below(10) {
        0 => Shape::new(k, r, w, 0),
        1 => Shape::new(k, r, w, rng.range(33, 65_535)),
        2 => Shape::new(k, n + 1, w, n),
        3 => Shape::new(k, r, rng.range(n + 1, 65_535), n),
        4 => Shape::new(0, r, w, n),
        5 => Shape::new(r + 1, r, n, n),
        6 => Shape::new(w + 1, n, w, n),
        7 if w < n => Shape::new(k, k + n - w - 1, w, n),
        8 if r < n => Shape::new(k, r, k + n - r - 1, n),
        _ if r < n && w < n => Shape::new(r + w - n + 1, r, w, n),
        _ => Shape::new(0, 0, 0, n),
    }
}

#[cfg(test)]
mod tests {
    use super::*;
    use crate::gate::ask_arrangement;

    /// The shapes are those that the gate passes, each once.
    #[test]
    fn every_shape_that_passes() {
        for n in 1..=9 {
            let mut passing = Vec::new();
            for k in 0..=n + 1 {
                for w in 0..=n + 1 {
                    passing.extend((0..=n + 1).map(|r| Shape::new(k, r, w, n)));
                }
            }
            passing.retain(|shape| ask_arrangement(&shape.with(1)) == 0);
            assert_eq!(shapes(n).collect::<Vec<_>>(), passing);
        }
    }

    #[test]
    fn how_many_there_are() {
        assert_eq!((1..=32).flat_map(tight_shapes).count(), 5984);
        assert_eq!((1..=32).flat_map(shapes).count(), 52_360);
    }

    #[test]
    fn wrong_shapes_are_refused() {
        let mut rng = Rng::new(7);
        let mut fourth = 0;
        for _ in 0..5000 {
            let good = any_shape(&mut rng, 32);
            assert_eq!(ask_arrangement(&good.with(1)), 0);
            let wrong = wrong_shape(&mut rng, good);
            let number = ask_arrangement(&wrong.with(1));
            assert_ne!(number, 0);
            if number == 4 {
                assert_eq!(wrong.r + wrong.w, wrong.k + wrong.n - 1);
                fourth += 1;
            }
        }
        assert!(fourth > 500);
    }
}
