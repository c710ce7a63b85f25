//! Node sets, and the order in which a check tries them.

use jirvents::Params;

/// The nodes of a set, counted from 1.
pub fn nodes(mut set: u32) -> impl Iterator<Item = u8> {
    std::iter::from_fn(move || {
        let node = (set != 0).then(|| set.trailing_zeros() as u8 + 1)?;
        set &= set - 1;
        Some(node)
    })
}

/// The nodes 1 to n outside a set.
pub fn outside(set: u32, n: usize) -> u32 {
    !set & u32::MAX >> (32 - n)
}

/// How many parts there are, message and slack; of the nodes to read the q lowest
/// are used.
pub fn working(p: Params) -> usize {
    p.k + p.n - p.w
}

/// A set without its `count` lowest nodes.
pub fn without_lowest(set: u32, count: usize) -> u32 {
    (0..count).fold(set, |set, _| set & set.wrapping_sub(1))
}

/// Where the block of a node starts.
pub fn start(node: u8, b: usize) -> usize {
    (usize::from(node) - 1) * b
}

/// All sets of the nodes 1 to n, by size and within a size by number.
pub fn in_order(n: usize) -> impl Iterator<Item = u32> {
    (0..=n).flat_map(move |size| {
        let first = (1u64 << size) - 1;
        let sets = std::iter::successors(Some(first), |&set| {
            // The lowest run of nodes: its highest moves up, the others to the bottom.
            let lowest = set & set.wrapping_neg();
            let moved = set + lowest;
            (set != 0).then(|| moved | ((set ^ moved) / lowest) >> 2)
        });
        sets.take_while(move |set| set >> n == 0)
            .map(|set| set as u32)
    })
}
