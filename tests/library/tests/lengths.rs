//! Block lengths. What is added to a block goes by eight bytes with a tail of up
//! to seven, and products go by tiles of 16 or 64 bytes or by stretches of 256:
//! here are lengths about all of these, for shapes that take each way, held
//! against the reference.

use library::{agree, params, right, Call, Lent, Library};
use reference::calls::Sending;
use reference::cases::{Calls, Case, Outcome, Reference};
use reference::corpus::draft::all;
use reference::corpus::Rng;
use reference::{Arrangement, Shape};

/// Every length up to 72, and those about 128, 256, 512 and 1,024.
fn lengths() -> impl Iterator<Item = u64> {
    let about = [1..=72, 120..=136, 248..=264, 504..=520, 1015..=1024];
    about.into_iter().flatten()
}

/// A change multiplies k parts for w blocks: one block; few bytes in all, in
/// more than one block; up to eight blocks of four parts; more than these.
fn shapes() -> [Shape; 12] {
    [
        // One block.
        Shape::new(1, 1, 1, 1),
        Shape::new(1, 3, 1, 3),
        // More than one, few bytes in all at small lengths.
        Shape::new(5, 6, 6, 7),
        Shape::new(1, 1, 9, 9),
        // Up to eight blocks of four parts.
        Shape::new(1, 2, 2, 3),
        Shape::new(4, 7, 7, 10),
        Shape::new(4, 9, 7, 10),
        Shape::new(4, 8, 8, 12),
        Shape::new(1, 2, 3, 3),
        // More than these.
        Shape::new(8, 9, 9, 10),
        Shape::new(16, 24, 24, 32),
        Shape::new(16, 32, 24, 32),
    ]
}

/// A rebuild writes all traps that it does not read.
#[test]
fn every_call() {
    let mut rng = Rng::new(601);
    for shape in shapes() {
        for b in lengths() {
            for call in Call::ALL {
                let mut case = right(&mut rng, call, shape.with(b));
                if let Case::Rebuild { read, lost, .. } = &mut case {
                    *lost = all(shape.n) & !*read;
                }
                assert_eq!(agree(&case), 0);
            }
        }
    }
}

/// A change and a difference with the same bytes through the same W. The record
/// holds any bytes; its serials are 0, and the change under serial 1 reaches all
/// of W.
struct Sent {
    a: Arrangement,
    record: Vec<u8>,
    d: Vec<u8>,
    write: u32,
    out: Vec<u8>,
}

impl Sent {
    fn any(rng: &mut Rng, a: Arrangement) -> Sent {
        let Arrangement { shape, b } = a;
        Sent {
            a,
            record: rng.bytes(shape.n * b),
            d: rng.bytes(shape.k * b),
            write: rng.choose(all(shape.n), shape.w),
            out: rng.bytes(shape.w * b),
        }
    }

    fn change(&self) -> Case {
        Case::Change {
            a: self.a,
            record: self.record.clone(),
            serials: self.serials(),
            d: self.d.clone(),
            write: self.write,
            serial: 1,
            reached: self.write,
        }
    }

    fn serials(&self) -> Vec<u32> {
        vec![0; self.a.shape.n as usize]
    }

    fn difference(&self) -> Case {
        Case::Difference {
            a: self.a,
            d: self.d.clone(),
            write: self.write,
            out: self.out.clone(),
        }
    }

    fn agree(&self, number: u64) {
        assert_eq!(agree(&self.change()), number);
        assert_eq!(agree(&self.difference()), number);
    }

    /// The change adds what the difference gives to W's blocks, no other byte is
    /// altered, and under the next serial it takes itself back.
    fn test_served(&self) {
        self.agree(0);
        let outcome = self.change().run(&Library);
        let (mut record, mut serials) = (outcome.bytes, outcome.serials);
        let differences = self.difference().run(&Library).bytes;
        assert!(record == added(self, &differences), "{:x?}", self.change());
        let given = Sending {
            d: &self.d,
            write: self.write,
            serial: 2,
            reached: self.write,
        };
        let number = Library.change(&self.a, &mut record, &mut serials, &given);
        assert_eq!(number, 0);
        assert!(record == self.record, "{:x?}", self.change());
    }

    /// What is refused with this number leaves all buffers as they are.
    fn test_refused(&self, number: u64) {
        self.agree(number);
        let outcome = self.change().run(&Library);
        assert_eq!(outcome.bytes, self.record);
        assert_eq!(outcome.serials, self.serials());
        assert_eq!(self.difference().run(&Library).bytes, self.out);
    }
}

/// Several W for each length.
#[test]
fn changes_add_differences() {
    let mut rng = Rng::new(602);
    for shape in shapes() {
        for b in lengths() {
            for _ in 0..4 {
                Sent::any(&mut rng, shape.with(b)).test_served();
            }
        }
    }
}

/// Every length from 0 to 1,025, of which the first and the last are refused,
/// with a shape for each way.
#[test]
fn every_length() {
    let mut rng = Rng::new(603);
    let ways = [
        Shape::new(1, 3, 1, 3),
        Shape::new(1, 1, 9, 9),
        Shape::new(1, 2, 2, 3),
        Shape::new(8, 9, 9, 10),
    ];
    for shape in ways {
        for b in 0..=1025 {
            let sent = Sent::any(&mut rng, shape.with(b));
            match b {
                0 | 1025 => sent.test_refused(5),
                _ => sent.test_served(),
            }
        }
    }
}

/// The record with differences added to the blocks of W, byte by byte.
fn added(sent: &Sent, differences: &[u8]) -> Vec<u8> {
    let size = sent.a.b as usize;
    let mut record = sent.record.clone();
    let blocks = record.chunks_mut(size).enumerate();
    let written = blocks.filter(|(index, _)| (sent.write >> index) & 1 == 1);
    for ((_, block), difference) in written.zip(differences.chunks(size)) {
        for (byte, added) in block.iter_mut().zip(difference) {
            *byte ^= added;
        }
    }
    record
}

/// Blocks of 0 bytes, and of more than 1,024, with buffers that have the lengths
/// asked for and with others.
#[test]
fn refused_lengths() {
    let mut rng = Rng::new(604);
    for shape in shapes() {
        for b in [0, 1025, 1031, 1032, 1033, 2048] {
            Sent::any(&mut rng, shape.with(b)).test_refused(5);
            for held in [1, 7, 8, 9, 1024] {
                let mut sent = Sent::any(&mut rng, shape.with(held));
                sent.a.b = b;
                sent.test_refused(5);
            }
        }
    }
}

/// Buffers that are longer or shorter than they should be, by up to nine bytes.
#[test]
fn buffers_of_other_lengths() {
    let mut rng = Rng::new(605);
    for shape in shapes() {
        for b in [1, 7, 8, 9, 63, 64, 65, 1023, 1024] {
            for by in (-9..=9).filter(|&by| by != 0) {
                let mut sent = Sent::any(&mut rng, shape.with(b));
                lengthen(&mut sent.d, by);
                sent.test_refused(6);
                let mut sent = Sent::any(&mut rng, shape.with(b));
                lengthen(&mut sent.record, by);
                lengthen(&mut sent.out, by);
                sent.test_refused(6);
            }
        }
    }
}

/// By so many bytes, or down to none.
fn lengthen(bytes: &mut Vec<u8>, by: isize) {
    let length = bytes.len().saturating_add_signed(by);
    bytes.resize(length, 0xD7);
}

/// What is read and what is written, each at every distance from a boundary of
/// eight bytes; serials at either that they can have.
#[test]
fn buffers_at_every_place_within_a_word() {
    let mut rng = Rng::new(606);
    for shape in shapes() {
        for b in [1, 7, 8, 9, 15, 16, 17, 63, 64, 65, 257, 1023, 1024] {
            let sent = Sent::any(&mut rng, shape.with(b));
            let Outcome { bytes, serials, .. } = sent.change().run(&Reference);
            let held = (bytes, serials);
            let out = sent.difference().run(&Reference).bytes;
            for places in 0..64 {
                let (from, to) = (places % 8, places / 8);
                assert!(changed(&sent, from, to) == held, "{b}: {from}, {to}");
                assert!(differences(&sent, from, to) == out, "{b}: {from}, {to}");
            }
        }
    }
}

fn changed(sent: &Sent, from: usize, to: usize) -> (Vec<u8>, Vec<u32>) {
    let (d, mut codeword) = (Lent::at(&sent.d, from), Lent::at(&sent.record, to));
    let mut kept = Lent::at(&sent.serials(), from + to);
    let result = jirvents::update(
        params(&sent.a),
        codeword.items_mut(),
        kept.items_mut(),
        d.items(),
        sent.write,
        1,
        sent.write,
    );
    assert_eq!(result, Ok(()));
    d.test_unchanged(&sent.d);
    let (mut record, mut serials) = (sent.record.clone(), sent.serials());
    codeword.give_back(&mut record);
    kept.give_back(&mut serials);
    (record, serials)
}

fn differences(sent: &Sent, from: usize, to: usize) -> Vec<u8> {
    let (d, mut given) = (Lent::at(&sent.d, from), Lent::at(&sent.out, to));
    let result = jirvents::delta(params(&sent.a), d.items(), sent.write, given.items_mut());
    assert_eq!(result, Ok(()));
    d.test_unchanged(&sent.d);
    let mut out = sent.out.clone();
    given.give_back(&mut out);
    out
}

/// One trap, whose point is 01, in one row: the difference is d itself. Every two
/// bytes are added at every place of a word, of a tail alone and of a word with a
/// tail, and their sum is their exclusive or.
#[test]
fn every_sum_of_two_bytes() {
    for b in [7usize, 8, 15, 1024] {
        for turn in 0..b.min(15) {
            let count = (65_536 + turn).next_multiple_of(b);
            let pair = |place| (place + 65_536 - turn) as u16;
            let pairs: Vec<u16> = (0..count).map(pair).collect();
            for pairs in pairs.chunks(b) {
                test_sums(pairs);
            }
        }
    }
}

fn test_sums(pairs: &[u16]) {
    let a = Arrangement::new(1, 1, 1, 1, pairs.len() as u64);
    let (held, d): (Vec<u8>, Vec<u8>) = pairs.iter().map(|pair| pair.to_le_bytes().into()).unzip();
    let sums: Vec<u8> = held.iter().zip(&d).map(|(x, y)| x ^ y).collect();
    let given = Sending {
        d: &d,
        write: 1,
        serial: 1,
        reached: 1,
    };
    for calls in [&Library as &dyn Calls, &Reference] {
        let mut record = held.clone();
        assert_eq!(calls.change(&a, &mut record, &mut [0], &given), 0);
        assert!(record == sums, "{held:x?} {d:x?}");
    }
}
