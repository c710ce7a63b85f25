//! The calls against the words that define them, for shapes of every sort and
//! for records that come from no pair.

mod plain;

use plain::{change, rearrangement, rebuild, setup};
use reference::calls::Move;
use reference::{check, difference, field, reading, Arrangement, Shape};

/// Bytes and choices without a plain pattern.
struct Numbers(u64);

impl Numbers {
    fn next(&mut self) -> u64 {
        self.0 ^= self.0 << 13;
        self.0 ^= self.0 >> 7;
        self.0 ^= self.0 << 17;
        self.0 >> 20
    }

    fn bytes(&mut self, count: u64) -> Vec<u8> {
        (0..count).map(|_| self.next() as u8).collect()
    }

    fn choice(&mut self, n: u64, size: u64) -> u32 {
        let mut choice = 0u32;
        while u64::from(choice.count_ones()) < size {
            choice |= 1 << (self.next() % n);
        }
        choice
    }

    fn shape(&mut self) -> Shape {
        let n = 1 + self.next() % 32;
        let k = 1 + self.next() % n;
        let w = k + self.next() % (n - k + 1);
        let least = k + n - w;
        let r = least + self.next() % (n - least + 1);
        Shape::new(k, r, w, n)
    }

    /// Every shape of up to 6 traps, and so many others.
    fn shapes(&mut self, others: usize) -> Vec<Shape> {
        let mut shapes = small_shapes(6);
        shapes.extend((0..others).map(|_| self.shape()));
        shapes
    }
}

/// Every shape that questions 1 to 4 pass, with n up to this.
fn small_shapes(most: u64) -> Vec<Shape> {
    let mut shapes = Vec::new();
    for n in 1..=most {
        for k in 1..=n {
            for w in k..=n {
                let passing = (k..=n).filter(|r| r + w >= k + n);
                shapes.extend(passing.map(|r| Shape::new(k, r, w, n)));
            }
        }
    }
    shapes
}

fn named(choice: u32, trap: u64) -> bool {
    (choice >> (trap - 1)) & 1 == 1
}

/// The working number: k and the n - w parts of the slack.
fn working(shape: &Shape) -> u64 {
    shape.k + shape.n - shape.w
}

/// R's q lowest traps.
fn lowest(shape: &Shape, read: u32) -> u32 {
    let mut lowest = 0u32;
    for trap in (1..=32).filter(|&t| named(read, t)) {
        if u64::from(lowest.count_ones()) < working(shape) {
            lowest |= 1 << (trap - 1);
        }
    }
    lowest
}

fn block(record: &[u8], trap: u64, b: u64) -> &[u8] {
    &record[((trap - 1) * b) as usize..(trap * b) as usize]
}

/// All the blocks that R's pair gives to the traps 1..n': a reading of all q
/// parts, as a message without slack, and a set-up with them.
fn blocks_of_pair(a: &Arrangement, record: &[u8], read: u32, n: u64) -> Vec<u8> {
    let q = working(&a.shape);
    let mut parts = vec![0; (q * a.b) as usize];
    let whole = Arrangement::new(q, q, a.shape.n, a.shape.n, a.b);
    let used = lowest(&a.shape, read);
    assert_eq!(reading(&whole, record, used, &mut parts), 0);
    let slackless = Arrangement::new(q, q, 32, 32, a.b);
    let mut blocks = vec![0; 32 * a.b as usize];
    assert_eq!(setup(&slackless, &parts, &[], &mut blocks), 0);
    blocks.truncate((n * a.b) as usize);
    blocks
}

/// Does one pair give all blocks?
fn agrees(a: &Arrangement, record: &[u8]) -> bool {
    let (number, blame) = check(a, record, 1);
    assert_eq!(number, 0);
    blame.is_some_and(|blame| (blame.set, blame.distance) == (0, 0))
}

#[test]
fn readings_give_their_pairs_message() {
    let mut numbers = Numbers(11);
    for shape in numbers.shapes(300) {
        let a = shape.with(3);
        let record = numbers.bytes(a.shape.n * 3);
        let read = numbers.choice(a.shape.n, a.shape.r);
        let blocks = blocks_of_pair(&a, &record, read, a.shape.n);
        let used = lowest(&shape, read);
        for trap in (1..=a.shape.n).filter(|&t| named(used, t)) {
            assert_eq!(block(&blocks, trap, 3), block(&record, trap, 3));
        }
        assert!(agrees(&a, &blocks));
        assert_eq!(
            read_through(&a, &record, read),
            read_any(&mut numbers, &a, &blocks)
        );
    }
}

fn read_through(a: &Arrangement, record: &[u8], read: u32) -> Vec<u8> {
    let mut out = vec![0; (a.shape.k * a.b) as usize];
    assert_eq!(reading(a, record, read, &mut out), 0);
    out
}

fn read_any(numbers: &mut Numbers, a: &Arrangement, record: &[u8]) -> Vec<u8> {
    let read = numbers.choice(a.shape.n, a.shape.r);
    read_through(a, record, read)
}

/// The document's sum: the byte that parts of one byte each give to a trap.
fn sum(parts: &[u8], trap: u64) -> u8 {
    let terms = (1..).zip(parts);
    let products = terms.map(|(e, &part)| field::mul(part, field::pow(trap as u8, e)));
    products.fold(0, field::add)
}

/// Every pair of at most two bytes.
fn pairs(parts: u64) -> Vec<Vec<u8>> {
    let counted = 0..1u32 << (8 * parts);
    let bytes = |number: u32| number.to_le_bytes()[..parts as usize].to_vec();
    counted.map(bytes).collect()
}

/// Of all pairs one alone gives the blocks of R's q lowest traps, whichever
/// bytes they hold, and the reading is its message.
#[test]
fn one_pair_gives_the_lowest_blocks() {
    let mut numbers = Numbers(17);
    for shape in small_shapes(5) {
        let q = working(&shape);
        if q > 2 {
            continue;
        }
        let record = numbers.bytes(shape.n);
        let read = numbers.choice(shape.n, shape.r);
        let used = lowest(&shape, read);
        let gives = |pair: &Vec<u8>| {
            let mut traps = (1..=shape.n).filter(|&t| named(used, t));
            traps.all(|t| sum(pair, t) == record[t as usize - 1])
        };
        let found: Vec<_> = pairs(q).into_iter().filter(gives).collect();
        assert_eq!(found.len(), 1);
        let message = &found[0][..shape.k as usize];
        assert_eq!(read_through(&shape.with(1), &record, read), message);
    }
}

#[test]
fn every_reading_after_setup_is_the_message() {
    let mut numbers = Numbers(12);
    for shape in numbers.shapes(300) {
        let a = shape.with(2);
        let message = numbers.bytes(a.shape.k * 2);
        let slack = numbers.bytes((shape.n - shape.w) * 2);
        let mut record = numbers.bytes(a.shape.n * 2);
        assert_eq!(setup(&a, &message, &slack, &mut record), 0);
        assert!(agrees(&a, &record));
        assert_eq!(read_any(&mut numbers, &a, &record), message);
    }
}

#[test]
fn differences_are_a_record_of_d_that_is_zero_outside_w() {
    let mut numbers = Numbers(13);
    for shape in numbers.shapes(300) {
        let a = shape.with(2);
        let d = numbers.bytes(a.shape.k * 2);
        let write = numbers.choice(a.shape.n, a.shape.w);
        let mut out = numbers.bytes(a.shape.w * 2);
        assert_eq!(difference(&a, &d, write, &mut out), 0);
        let spread = spread(&a, write, &out);
        assert!(agrees(&a, &spread));
        assert_eq!(read_any(&mut numbers, &a, &spread), d);
        let before = numbers.bytes(a.shape.n * 2);
        let mut after = before.clone();
        assert_eq!(change(&a, &mut after, &d, write), 0);
        let sum: Vec<u8> = before.iter().zip(&spread).map(|(x, y)| x ^ y).collect();
        assert_eq!(after, sum);
    }
}

/// The differences at W's traps in rising order, 00 elsewhere.
fn spread(a: &Arrangement, write: u32, differences: &[u8]) -> Vec<u8> {
    let mut chunks = differences.chunks(a.b as usize);
    let mut record = Vec::new();
    for trap in 1..=a.shape.n {
        if named(write, trap) {
            record.extend(chunks.next().unwrap());
        } else {
            record.extend(vec![0; a.b as usize]);
        }
    }
    record
}

/// The bytes of one byte place, out of each part or block.
fn at_place(bytes: &[u8], b: u64, place: u64) -> Vec<u8> {
    let of_place = bytes.iter().skip(place as usize);
    of_place.step_by(b as usize).copied().collect()
}

/// What a difference and a change give for blocks of b bytes is, at each byte
/// place, what they give for blocks of one byte.
fn test_places(numbers: &mut Numbers, shape: Shape, b: u64) {
    let (a, one) = (shape.with(b), shape.with(1));
    let d = numbers.bytes(shape.k * b);
    let write = numbers.choice(shape.n, shape.w);
    let before = numbers.bytes(shape.n * b);
    let mut after = before.clone();
    assert_eq!(change(&a, &mut after, &d, write), 0);
    let mut out = numbers.bytes(shape.w * b);
    assert_eq!(difference(&a, &d, write, &mut out), 0);
    for place in 0..b {
        let d = at_place(&d, b, place);
        let mut record = at_place(&before, b, place);
        assert_eq!(change(&one, &mut record, &d, write), 0);
        assert_eq!(record, at_place(&after, b, place));
        let mut differences = vec![0; shape.w as usize];
        assert_eq!(difference(&one, &d, write, &mut differences), 0);
        assert_eq!(differences, at_place(&out, b, place));
    }
}

#[test]
fn byte_places_are_apart() {
    let mut numbers = Numbers(20);
    for shape in [
        Shape::new(1, 3, 1, 3),
        Shape::new(1, 2, 2, 3),
        Shape::new(4, 9, 7, 10),
        Shape::new(8, 9, 9, 10),
    ] {
        for b in [1, 7, 8, 9, 63, 64, 65, 1023, 1024] {
            test_places(&mut numbers, shape, b);
        }
    }
}

/// Of all slacks one alone gives 00 outside W with this d.
#[test]
fn one_slack_is_zero_outside_w() {
    let mut numbers = Numbers(18);
    for shape in small_shapes(5) {
        let slack = shape.n - shape.w;
        if slack > 2 {
            continue;
        }
        let d = numbers.bytes(shape.k);
        let write = numbers.choice(shape.n, shape.w);
        let parts = pairs(slack).into_iter().map(|v| [d.clone(), v].concat());
        let zero = |pair: &Vec<u8>| {
            let mut traps = (1..=shape.n).filter(|&t| !named(write, t));
            traps.all(|t| sum(pair, t) == 0)
        };
        let found: Vec<_> = parts.filter(zero).collect();
        assert_eq!(found.len(), 1);
        let traps = (1..=shape.n).filter(|&t| named(write, t));
        let expected: Vec<u8> = traps.map(|t| sum(&found[0], t)).collect();
        let mut out = numbers.bytes(shape.w);
        assert_eq!(difference(&shape.with(1), &d, write, &mut out), 0);
        assert_eq!(out, expected);
    }
}

#[test]
fn rebuild_writes_the_lost_traps_only() {
    let mut numbers = Numbers(14);
    for shape in numbers.shapes(300) {
        let a = shape.with(2);
        let before = numbers.bytes(a.shape.n * 2);
        let read = numbers.choice(a.shape.n, a.shape.r);
        let lost = numbers.next() as u32 & !read & ((1u64 << a.shape.n) - 1) as u32;
        let mut after = before.clone();
        assert_eq!(rebuild(&a, &mut after, read, lost), 0);
        let pair = blocks_of_pair(&a, &before, read, a.shape.n);
        for trap in 1..=a.shape.n {
            let source = if named(lost, trap) { &pair } else { &before };
            assert_eq!(block(&after, trap, 2), block(source, trap, 2));
        }
    }
}

/// Tests one rearrangement between shapes.
fn test_rearrangement(numbers: &mut Numbers, from: Shape, to: Shape) {
    let a = from.with(2);
    let record = numbers.bytes(from.n * 2);
    let message = numbers.bytes(to.k * 2);
    let given = Move {
        read: numbers.choice(from.n, from.r),
        to,
        write: numbers.choice(to.n, to.w),
        message: &message,
    };
    let mut new = numbers.bytes(to.n * 2);
    assert_eq!(rearrangement(&a, &record, &given, &mut new), 0);
    let pair = tested_pair(&a, &record, &given, &new);
    assert!(agrees(&to.with(2), &pair));
    assert_eq!(read_any(numbers, &to.with(2), &pair), message);
}

#[test]
fn rearrangement_by_its_three_cases() {
    let mut numbers = Numbers(15);
    for from in small_shapes(4) {
        for to in small_shapes(5) {
            test_rearrangement(&mut numbers, from, to);
        }
    }
    for _ in 0..500 {
        let (from, to) = (numbers.shape(), numbers.shape());
        test_rearrangement(&mut numbers, from, to);
    }
}

/// Tests the copied blocks and those above n, and gives the new pair's blocks:
/// the new record's in W', and the old pair's values outside W'.
fn tested_pair(a: &Arrangement, record: &[u8], given: &Move, new: &[u8]) -> Vec<u8> {
    let z = blocks_of_pair(a, record, given.read, given.to.n);
    let mut pair = Vec::new();
    for trap in 1..=given.to.n {
        let held = block(new, trap, a.b);
        if named(given.write, trap) {
            pair.extend(held);
            continue;
        }
        let copied = trap <= a.shape.n;
        let source = if copied { record } else { &z };
        assert_eq!(held, block(source, trap, a.b));
        pair.extend(block(&z, trap, a.b));
    }
    pair
}

/// The record with other bytes in these traps.
fn altered(numbers: &mut Numbers, record: &[u8], traps: u32, b: u64) -> Vec<u8> {
    let mut altered = record.to_vec();
    for (place, byte) in altered.iter_mut().enumerate() {
        if named(traps, place as u64 / b + 1) {
            *byte ^= 1 + (numbers.next() % 255) as u8;
        }
    }
    altered
}

/// The r - q other traps of R may hold anything: readings, rebuilt blocks and
/// newly written ones are the same.
#[test]
fn the_other_traps_of_r_do_not_matter() {
    let mut numbers = Numbers(19);
    for shape in numbers.shapes(500) {
        let Shape { r, n, .. } = shape;
        let a = shape.with(2);
        let read = numbers.choice(n, r);
        let others = read & !lowest(&shape, read);
        assert_eq!(u64::from(others.count_ones()), r - working(&shape));
        let record = numbers.bytes(n * 2);
        let other = altered(&mut numbers, &record, others, 2);
        assert_eq!(
            read_through(&a, &record, read),
            read_through(&a, &other, read)
        );
        let lost = ((1u64 << n) - 1) as u32 & !read;
        let (mut one, mut two) = (record.clone(), other.clone());
        assert_eq!(rebuild(&a, &mut one, read, lost), 0);
        assert_eq!(rebuild(&a, &mut two, read, lost), 0);
        for trap in (1..=n).filter(|&t| !named(others, t)) {
            assert_eq!(block(&one, trap, 2), block(&two, trap, 2));
        }
        let to = numbers.shape();
        let message = numbers.bytes(to.k * 2);
        let given = Move {
            read,
            to,
            write: numbers.choice(to.n, to.w),
            message: &message,
        };
        let mut one = vec![0; (to.n * 2) as usize];
        let mut two = one.clone();
        assert_eq!(rearrangement(&a, &record, &given, &mut one), 0);
        assert_eq!(rearrangement(&a, &other, &given, &mut two), 0);
        for trap in (1..=to.n).filter(|&t| named(given.write, t) || !named(others, t)) {
            assert_eq!(block(&one, trap, 2), block(&two, trap, 2));
        }
    }
}
