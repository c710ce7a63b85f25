//! Which traps to blame (request 2026-06): rows by hand, every set of damaged traps of
//! small shapes, and some of large ones. Each check is held against the reference and,
//! by another method, against the request's own words.

use library::{about, shape_with, Library};
use reference::blocks::{scale, split, Block};
use reference::cases::{Case, Reference};
use reference::corpus::draft::all;
use reference::corpus::{any_shape, Rng};
use reference::pair::{place, point, traps_of, traps_outside};
use reference::polynomial::interpolate;
use reference::{difference, field, setup, Arrangement, Blame, Shape};

/// The library's answer, which must be the reference's.
fn blame(a: &Arrangement, record: &[u8], budget: u64) -> Blame {
    let case = Case::Check {
        a: *a,
        record: record.to_vec(),
        budget,
    };
    let (found, expected) = (case.run(&Library), case.run(&Reference));
    assert!(found == expected, "{case:x?}\n{found:x?}\n{expected:x?}");
    assert_eq!(found.number, 0);
    found.blame.unwrap()
}

/// The rows of one record, for the budgets 0, 1, .. : set, tried, distance. A larger
/// budget than the last is of no use.
fn test_rows(a: Arrangement, record: &[u8], rows: &[(u32, u64, u64)]) {
    let found = |budget| {
        let blame = blame(&a, record, budget);
        (blame.set, blame.tried, blame.distance)
    };
    for (budget, row) in (0..).zip(rows) {
        assert_eq!(found(budget), *row, "{record:x?} {budget}");
    }
    for budget in [rows.len() as u64, 1 << 32, 1 << 63, u64::MAX] {
        assert_eq!(Some(&found(budget)), rows.last());
    }
}

#[test]
fn rows_by_hand() {
    let rows = [
        (0b110, 0, 2),
        (0b110, 1, 1),
        (0b110, 2, 1),
        (0b110, 3, 1),
        (0b110, 4, 0),
        (0b011, 5, 0),
    ];
    test_rows(Arrangement::new(1, 1, 3, 3, 1), &[1, 1, 1], &rows);
    // Any set of one trap serves: the lowest is named, whichever trap is bad.
    let a = Arrangement::new(1, 2, 2, 3, 1);
    let rows = [(0b100, 0, 1), (0b100, 1, 0), (0b001, 2, 0)];
    test_rows(a, &[0xF9, 0x0A, 0x0C], &rows);
    test_rows(a, &[0x06, 0xF5, 0x0C], &rows);
    test_rows(a, &[0x06, 0x0A, 0xF3], &rows);
    test_rows(a, &[0x06, 0x0A, 0x0C], &[(0b100, 0, 1), (0, 1, 0)]);
    // No trap to spare.
    for (k, r, w, n) in [(3, 3, 3, 3), (1, 3, 1, 3), (1, 1, 1, 1)] {
        let record = &[0xF9, 0x0A, 0x0C][..n as usize];
        let rows = [(0, 0, 0), (0, 1, 0)];
        test_rows(Arrangement::new(k, r, w, n, 1), record, &rows);
    }
    // Trap 1 is bad at the second place, trap 3 at the first.
    let record = [0x07, 0x81, 0x0E, 2, 0x08, 3, 0x1C, 4];
    let rows = [
        (0b1110, 0, 3),
        (0b1110, 1, 2),
        (0b1110, 2, 2),
        (0b1110, 3, 2),
        (0b1110, 4, 2),
        (0b1110, 5, 1),
        (0b1110, 6, 1),
        (0b0101, 7, 0),
    ];
    test_rows(Arrangement::new(1, 1, 4, 4, 2), &record, &rows);
}

fn block_of<'r>(a: &Arrangement, record: &'r [u8], trap: u64) -> &'r [u8] {
    &record[place(trap, a.b as usize)]
}

/// Does one pair give all blocks outside the set? Divided by their points these are
/// the values of a polynomial of degree below q.
fn serves(a: &Arrangement, record: &[u8], set: u32) -> bool {
    let rest = traps_outside(set, a.shape.n);
    let points: Vec<u8> = rest.iter().map(|&trap| point(trap)).collect();
    let value = |&trap: &u64| {
        let mut block = block_of(a, record, trap).to_vec();
        scale(&mut block, field::inv(point(trap)));
        block
    };
    let parts = interpolate(&points, rest.iter().map(value).collect());
    let mut above = parts.iter().skip(a.shape.q() as usize).flatten();
    above.all(|&byte| byte == 0)
}

fn size(set: u32) -> u64 {
    u64::from(set.count_ones())
}

/// Sets of traps in the order in which they are tried.
struct Order {
    sets: Vec<u32>,
}

impl Order {
    /// All of the traps 1..n, up to a size.
    fn new(n: u64, most: u64) -> Order {
        let mut sets: Vec<u32> = vec![0];
        let mut last = sets.clone();
        for _ in 0..most {
            // One trap more, below those that there are.
            let added = last.iter().flat_map(|&set| {
                let bits = 0..n.min(u64::from(set.trailing_zeros()));
                bits.map(move |bit| set | 1 << bit)
            });
            last = added.collect();
            last.sort_unstable();
            sets.extend(&last);
        }
        Order { sets }
    }

    /// How many are tried until one serves.
    fn count(&self, a: &Arrangement, record: &[u8]) -> u64 {
        let found = self.sets.iter().position(|&set| serves(a, record, set));
        found.expect("a set that serves") as u64 + 1
    }

    fn set(&self, index: u64) -> u32 {
        self.sets[index as usize]
    }
}

#[test]
fn the_order_of_the_sets() {
    for n in 1..=10 {
        let mut sets: Vec<u32> = (0..1 << n).collect();
        sets.sort_by_key(|set| (set.count_ones(), *set));
        assert_eq!(Order::new(n, n).sets, sets);
    }
    assert_eq!(Order::new(32, 3).sets.len(), 1 + 32 + 496 + 4960);
}

/// How often each end came up.
#[derive(Debug, Default)]
struct Ends {
    sound: u64,
    exact: u64,
    others: u64,
    stopped: u64,
    stopped_at_smallest: u64,
}

/// A record, and the traps where it is another than a sound one.
struct Damaged {
    a: Arrangement,
    record: Vec<u8>,
    traps: u32,
}

impl Damaged {
    /// Holds one check to the request's words: the set serves, no set that is smaller
    /// by more than the distance does, and up to (n - q)/2 bad traps are named.
    fn test(&self, order: &Order, count: u64, budget: u64, ends: &mut Ends) {
        let Damaged { a, record, traps } = self;
        let spare = a.shape.n - a.shape.q();
        let (first, bad) = (order.set(count - 1), *traps);
        let found = blame(a, record, budget);
        assert!(serves(a, record, found.set));
        assert!(size(found.set) <= size(first) + found.distance);
        if budget < count {
            let stopped = all(a.shape.n) & !all(a.shape.q());
            let next = order.set(budget);
            assert_eq!((found.set, found.tried), (stopped, budget));
            assert_eq!(found.distance, spare - size(next));
            ends.stopped += 1;
            ends.stopped_at_smallest += u64::from(found.distance == 0);
            return;
        }
        assert_eq!((found.set, found.tried), (first, count));
        assert_eq!(found.distance, 0);
        if 2 * size(bad) <= spare {
            assert_eq!(found.set, bad);
        }
        match found.set {
            0 => ends.sound += 1,
            set if set == bad => ends.exact += 1,
            _ => ends.others += 1,
        }
    }

    /// Budgets that stop it at once, about where it ends, and that suffice.
    fn test_budgets(&self, rng: &mut Rng, order: &Order, ends: &mut Ends) {
        let count = order.count(&self.a, &self.record);
        let some = rng.below(count);
        for budget in [0, 1, some, count - 1, count, count + 1, u64::MAX] {
            self.test(order, count, budget, ends);
        }
    }
}

/// How traps are damaged.
#[derive(Clone, Copy, Debug)]
enum Fill {
    OneByte,
    EveryByte,
    /// The blocks that another pair gives.
    OtherPair,
    /// Those of another pair that differs from the record's own in as few traps as
    /// pairs can, n - q + 1.
    NearPair,
}

impl Fill {
    const ALL: [Fill; 4] = [
        Fill::OneByte,
        Fill::EveryByte,
        Fill::OtherPair,
        Fill::NearPair,
    ];
}

fn sound(rng: &mut Rng, a: &Arrangement) -> Vec<u8> {
    let message = rng.bytes(a.shape.k * a.b);
    let slack = rng.bytes(a.shape.l() * a.b);
    let mut record = vec![0; (a.shape.n * a.b) as usize];
    let mut serials = vec![0; a.shape.n as usize];
    assert_eq!(setup(a, &message, &slack, &mut record, &mut serials), 0);
    record
}

fn nonzero(rng: &mut Rng, count: u64) -> Vec<u8> {
    (0..count).map(|_| rng.range(1, 255) as u8).collect()
}

/// What is added to the blocks of the traps; of a near pair, to n - q + 1 of them at
/// most.
fn added(rng: &mut Rng, a: &Arrangement, traps: u32, fill: Fill) -> Vec<(u64, Block)> {
    let Arrangement { shape, b } = *a;
    let (n, q) = (shape.n, shape.q());
    match fill {
        Fill::OneByte => {
            let one = |trap| {
                let mut block = vec![0; b as usize];
                block[rng.below(b) as usize] = rng.range(1, 255) as u8;
                (trap, block)
            };
            traps_of(traps).into_iter().map(one).collect()
        }
        Fill::EveryByte => {
            let every = |trap| (trap, nonzero(rng, b));
            traps_of(traps).into_iter().map(every).collect()
        }
        Fill::OtherPair => {
            let other = sound(rng, a);
            let of_trap = |trap| (trap, block_of(a, &other, trap).to_vec());
            traps_of(traps).into_iter().map(of_trap).collect()
        }
        Fill::NearPair => {
            // 00 outside w traps, and 00 nowhere within.
            let w = n - q + 1;
            let within = rng.choose(traps, w);
            let write = within | rng.choose(all(n) & !traps, w - size(within));
            let (d, mut out) = (nonzero(rng, b), vec![0; (w * b) as usize]);
            let near = Arrangement::new(1, q, w, n, b);
            assert_eq!(difference(&near, &d, write, &mut out), 0);
            let blocks = traps_of(write).into_iter().zip(split(&out, b as usize));
            let kept = blocks.filter(|(trap, _)| traps_of(traps).contains(trap));
            kept.collect()
        }
    }
}

fn damaged(rng: &mut Rng, a: Arrangement, traps: u32, fill: Fill) -> Damaged {
    let before = sound(rng, &a);
    let mut record = before.clone();
    for (trap, block) in added(rng, &a, traps, fill) {
        let held = &mut record[place(trap, a.b as usize)];
        held.iter_mut().zip(&block).for_each(|(x, y)| *x ^= y);
    }
    let differs = |&trap: &u64| block_of(&a, &record, trap) != block_of(&a, &before, trap);
    let differing = (1..=a.shape.n).filter(differs);
    let traps = differing.fold(0, |set, trap| set | 1 << (trap - 1));
    Damaged { a, record, traps }
}

/// Every n up to 8, every q, every set of damaged traps, in every way.
#[test]
fn every_set_of_damaged_traps() {
    let mut rng = Rng::new(901);
    let mut ends = Ends::default();
    for n in 1..=8 {
        let order = Order::new(n, n);
        for q in 1..=n {
            for traps in 0..=all(n) {
                for fill in Fill::ALL {
                    for b in 1..=3 {
                        let a = shape_with(&mut rng, n, q).with(b);
                        let damaged = damaged(&mut rng, a, traps, fill);
                        damaged.test_budgets(&mut rng, &order, &mut ends);
                    }
                }
            }
        }
    }
    let Ends {
        sound,
        exact,
        others,
        stopped,
        stopped_at_smallest,
    } = ends;
    let counts = [sound, exact, others, stopped, stopped_at_smallest];
    assert!(counts.iter().all(|&count| count > 1000), "{ends:?}");
}

/// Any bytes in all traps: mostly no set of fewer than n - q traps serves.
#[test]
fn any_bytes() {
    let mut rng = Rng::new(902);
    let mut ends = Ends::default();
    for n in 1..=8 {
        let order = Order::new(n, n);
        for _ in 0..100 {
            let q = rng.range(1, n);
            let a = shape_with(&mut rng, n, q).with(rng.range(1, 3));
            let (record, traps) = (rng.bytes(n * a.b), all(n));
            let damaged = Damaged { a, record, traps };
            damaged.test_budgets(&mut rng, &order, &mut ends);
        }
    }
    // Every set of up to 14 of 16 traps.
    let order = Order::new(16, 15);
    let a = Shape::new(1, 1, 16, 16).with(2);
    let (record, traps) = (rng.bytes(32), all(16));
    let count = order.count(&a, &record);
    let damaged = Damaged { a, record, traps };
    damaged.test(&order, count, u64::MAX, &mut ends);
    assert!(count > 20_000);
}

/// Shapes of up to 32 traps, one or two of them damaged.
#[test]
fn large_shapes() {
    let mut rng = Rng::new(903);
    let mut ends = Ends::default();
    for _ in 0..150 {
        let shape = any_shape(&mut rng, 32);
        let order = Order::new(shape.n, 2);
        let bad = rng.range(0, 2).min(shape.n - shape.q());
        let traps = rng.choose(all(shape.n), bad);
        let fill = rng.pick(&Fill::ALL);
        let a = shape.with(rng.range(1, 3));
        let damaged = damaged(&mut rng, a, traps, fill);
        let count = order.count(&a, &damaged.record);
        for budget in [rng.below(count), count - 1, count, u64::MAX] {
            damaged.test(&order, count, budget, &mut ends);
        }
    }
    assert!(ends.exact > 50 && ends.stopped > 50, "{ends:?}");
}

/// The highest of 32 traps: the last sets of their sizes.
#[test]
fn the_last_traps() {
    let mut rng = Rng::new(904);
    let order = Order::new(32, 4);
    let three = [(4, 20, 16, 1), (1, 8, 32, 2), (2, 26, 8, 1)];
    for (traps, count, shapes) in [
        (1 << 31, 33, &three[..]),
        (3 << 30, 529, &three),
        (7 << 29, 5489, &three),
        (15 << 28, 41_449, &[(1, 8, 32, 1)]),
    ] {
        for &(k, r, w, b) in shapes {
            let a = Arrangement::new(k, r, w, 32, b);
            let damaged = damaged(&mut rng, a, traps, Fill::EveryByte);
            assert_eq!(order.count(&a, &damaged.record), count);
            for budget in [count - 1, count] {
                damaged.test(&order, count, budget, &mut Ends::default());
            }
        }
    }
}

/// Any four or five of 17 to 20 traps.
#[test]
fn four_or_five_of_many() {
    let mut rng = Rng::new(909);
    let mut ends = Ends::default();
    for n in 17..=20 {
        let order = Order::new(n, 5);
        for bad in 4..=5 {
            let q = rng.range(1, n - 2 * bad);
            let a = shape_with(&mut rng, n, q).with(1);
            let traps = rng.choose(all(n), bad);
            let damaged = damaged(&mut rng, a, traps, Fill::EveryByte);
            let count = order.count(&a, &damaged.record);
            damaged.test(&order, count, rng.below(count), &mut ends);
            damaged.test(&order, count, count, &mut ends);
        }
    }
    assert_eq!((ends.exact, ends.stopped), (8, 8));
}

/// A record from which no small set serves: budgets about the ends of sizes 0, 1 and 2.
#[test]
fn stopped_among_32_traps() {
    let mut rng = Rng::new(905);
    for (k, r, w, b) in [
        (4, 20, 16, 1),
        (1, 1, 32, 1),
        (16, 24, 24, 3),
        (1, 32, 4, 2),
    ] {
        let a = Arrangement::new(k, r, w, 32, b);
        let (record, spare) = (rng.bytes(32 * b), w - k);
        let stopped = all(32) & !all(32 - spare);
        for (budget, next) in [
            (0, 0),
            (1, 1),
            (2, 1),
            (32, 1),
            (33, 2),
            (34, 2),
            (528, 2),
            (529, 3),
            (530, 3),
        ] {
            if budget > 529 && next == spare {
                // The first set of n - q traps serves.
                continue;
            }
            let expected = Blame {
                set: stopped,
                tried: budget,
                distance: spare - next,
            };
            assert_eq!(blame(&a, &record, budget), expected);
        }
    }
}

/// One bad byte in blocks of sizes up to 1,024: the first, the last, or any.
#[test]
fn one_byte_of_a_long_block() {
    let mut rng = Rng::new(906);
    let mut ends = Ends::default();
    let order = Order::new(10, 3);
    for b in (1..=1024).step_by(11) {
        let a = Shape::new(1, 8, 4, 10).with(b);
        let any = rng.below(b);
        for place in [0, b - 1, any] {
            let (trap, mut record) = (rng.range(1, 10), sound(&mut rng, &a));
            record[((trap - 1) * b + place) as usize] ^= rng.range(1, 255) as u8;
            let traps = 1 << (trap - 1);
            let damaged = Damaged { a, record, traps };
            let count = trap + 1;
            for budget in [1, count, u64::MAX] {
                damaged.test(&order, count, budget, &mut ends);
            }
        }
    }
    assert!(ends.others == 0 && ends.sound == 0, "{ends:?}");
}

/// Each bad trap is bad at one byte place of its own, so that no place tells of two
/// traps: all of these places count. Where fewer than n - q are bad, exactly these are named.
#[test]
fn a_place_for_each_bad_trap() {
    let mut rng = Rng::new(907);
    for (n, q) in [(8, 1), (9, 2), (10, 3), (12, 1), (12, 4), (14, 1)] {
        let order = Order::new(n, n - q);
        let mut ends = Ends::default();
        for bad in 1..=n - q {
            let b = rng.range(n, 80);
            let a = shape_with(&mut rng, n, q).with(b);
            let (mut record, traps) = (sound(&mut rng, &a), rng.choose(all(n), bad));
            let first = rng.below(b);
            for (turn, trap) in (0..).zip(traps_of(traps)) {
                let place = (first + turn * (b / n)) % b;
                record[((trap - 1) * b + place) as usize] ^= rng.range(1, 255) as u8;
            }
            let damaged = Damaged { a, record, traps };
            damaged.test_budgets(&mut rng, &order, &mut ends);
            assert!(bad == n - q || ends.others == 0, "{ends:?}");
        }
    }
}

/// The blocks of the n - q traps that are compared have room of 128 bytes, of 1,024 or
/// of all that there can be: sizes just within each, and just past it.
#[test]
fn rooms() {
    let mut rng = Rng::new(908);
    let mut ends = Ends::default();
    for room in [128, 1024] {
        for spare in 1..=9 {
            let q = rng.range(1, 3);
            let n = q + spare;
            let order = Order::new(n, spare);
            for b in about(room, spare) {
                let a = shape_with(&mut rng, n, q).with(b);
                for traps in [0, 1, 1 << (n - 1), 3] {
                    let damaged = damaged(&mut rng, a, traps, Fill::OneByte);
                    damaged.test_budgets(&mut rng, &order, &mut ends);
                }
            }
        }
    }
    assert!(ends.sound > 50 && ends.exact > 100, "{ends:?}");
}
