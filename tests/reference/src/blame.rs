//! Which traps to blame, within a budget (request 2026-06): sets of traps are tried
//! one after another, by size from 0 and within a size by number.

use crate::gate::Arrangement;
use crate::pair::{place, traps_outside, Pair};

/// What an accepted check gives.
#[derive(Clone, Copy, Debug, PartialEq, Eq)]
pub struct Blame {
    /// The traps to blame, as a choice.
    pub set: u32,
    /// How many sets were tried.
    pub tried: u64,
    /// How far the set's size may be above the smallest.
    pub distance: u64,
}

/// Does one pair give all blocks outside the set? Any q blocks have such a pair.
pub fn serves(a: &Arrangement, record: &[u8], set: u32) -> bool {
    let rest = traps_outside(set, a.shape.n);
    let q = a.shape.q() as usize;
    if rest.len() <= q {
        return true;
    }
    let pair = Pair::through(a, record, &rest);
    let agrees = |&trap: &u64| pair.block(trap) == record[place(trap, a.b as usize)];
    rest[q..].iter().all(agrees)
}

/// Hands on the sets of `size` traps of 1..n, each with the traps of `above` added,
/// the lowest number first, until one is the last. Was there a last one?
///
/// Those without trap n come before those with it.
fn each_set(n: u64, size: u64, above: u32, is_last: &mut dyn FnMut(u32) -> bool) -> bool {
    if size > n {
        return false;
    }
    if size == 0 {
        return is_last(above);
    }
    let with_n = above | 1 << (n - 1);
    each_set(n - 1, size, above, is_last) || each_set(n - 1, size - 1, with_n, is_last)
}

/// The traps q+1..n.
fn above_q(a: &Arrangement) -> u32 {
    let traps = a.shape.q() + 1..=a.shape.n;
    traps.map(|trap| 1 << (trap - 1)).sum()
}

/// The first set that serves, of at most `budget` sets; if none of these does, the
/// traps q+1..n. Sets of n - q traps all serve, so that no larger one is tried.
pub fn blame(a: &Arrangement, record: &[u8], budget: u64) -> Blame {
    let (n, most) = (a.shape.n, a.shape.n - a.shape.q());
    let mut tried = 0;
    let mut found = None;
    for size in 0..=most {
        let ended = each_set(n, size, 0, &mut |set| {
            if tried == budget {
                found = Some((above_q(a), most - size));
            } else {
                tried += 1;
                found = serves(a, record, set).then_some((set, 0));
            }
            found.is_some()
        });
        if ended {
            break;
        }
    }
    let (set, distance) = found.expect("a set of n - q traps serves");
    Blame {
        set,
        tried,
        distance,
    }
}

#[cfg(test)]
mod tests {
    use super::*;

    fn sets(n: u64, size: u64) -> Vec<u32> {
        let mut sets = Vec::new();
        let ended = each_set(n, size, 0, &mut |set| {
            sets.push(set);
            false
        });
        assert!(!ended);
        sets
    }

    #[test]
    fn sets_by_size_and_number() {
        for n in 1..=12 {
            let found: Vec<u32> = (0..=n).flat_map(|size| sets(n, size)).collect();
            let mut all: Vec<u32> = (0..1 << n).collect();
            all.sort_by_key(|set| (set.count_ones(), *set));
            assert_eq!(found, all);
        }
    }

    #[test]
    fn sets_of_32_traps() {
        assert_eq!(sets(32, 0), [0]);
        let ones: Vec<u32> = (0..32).map(|bit| 1 << bit).collect();
        assert_eq!(sets(32, 1), ones);
        for (size, count) in [(2, 496), (3, 4960), (30, 496), (31, 32), (32, 1)] {
            let found = sets(32, size);
            assert_eq!(found.len(), count);
            assert!(found.iter().all(|set| u64::from(set.count_ones()) == size));
            assert!(found.windows(2).all(|two| two[0] < two[1]));
        }
        assert!(sets(32, 33).is_empty());
    }

    #[test]
    fn the_last_set_ends_it() {
        let mut seen = Vec::new();
        assert!(each_set(32, 16, 0, &mut |set| {
            seen.push(set);
            seen.len() == 3
        }));
        assert_eq!(seen, [0xFFFF, 0x1_7FFF, 0x1_BFFF]);
    }

    #[test]
    fn traps_above_q() {
        assert_eq!(above_q(&Arrangement::new(1, 1, 3, 3, 1)), 0b110);
        assert_eq!(above_q(&Arrangement::new(3, 3, 3, 3, 1)), 0);
        assert_eq!(above_q(&Arrangement::new(4, 20, 16, 32, 1)), 0xFFF0_0000);
    }
}
