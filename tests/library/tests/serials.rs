//! Serials: what each node adds and takes, sends that break off and are repeated,
//! lists against the ledger, serials of other lengths, and the place of question 24.

use library::{agree, any_arrangement, any_serial, any_serials, right, shapes, Call, Library};
use reference::calls::Sending;
use reference::cases::{Calls, Case};
use reference::corpus::draft::all;
use reference::corpus::Rng;
use reference::{lists, Arrangement, Shape};

/// The calls that are lent serials.
const LENT_SERIALS: [Call; 4] = [
    Call::Setup,
    Call::Change,
    Call::Rebuild,
    Call::Rearrangement,
];

/// Every choice of the traps up to n + 1, and two far above.
fn choices(n: u64) -> impl Iterator<Item = u32> {
    (0..2 << n).chain([1 << 31, u32::MAX])
}

/// Every W, every choice reached, and for each trap a serial below, equal to and
/// above that of the change.
#[test]
fn every_send() {
    let mut rng = Rng::new(701);
    for shape in shapes(4) {
        let Shape { k, w, n, .. } = shape;
        let of_size = |choice: &u32| u64::from(choice.count_ones()) == w;
        for write in (0..1 << n).filter(of_size) {
            for reached in choices(n) {
                for pattern in 0..3u32.pow(n as u32) {
                    let own = |trap| 4 + pattern / 3u32.pow(trap) % 3;
                    let case = Case::Change {
                        a: shape.with(1),
                        record: rng.bytes(n),
                        serials: (0..n as u32).map(own).collect(),
                        d: rng.bytes(k),
                        write,
                        serial: 5,
                        reached,
                    };
                    assert_eq!(agree(&case), 0);
                }
            }
        }
    }
}

/// Serials are compared as numbers of 32 bits, whole: pairs about every power of
/// two, and the outermost.
#[test]
fn every_size_of_serial() {
    let mut rng = Rng::new(702);
    let about = |bit: u32| [(1u32 << bit).wrapping_sub(1), 1 << bit, (1 << bit) + 1];
    let mut numbers: Vec<u32> = (0..32).flat_map(about).collect();
    numbers.extend([u32::MAX - 1, u32::MAX]);
    let a = Arrangement::new(1, 2, 2, 3, 1);
    for &serial in &numbers {
        for &own in &numbers {
            let case = Case::Change {
                a,
                record: rng.bytes(3),
                serials: vec![own, any_serial(&mut rng), own],
                d: vec![5],
                write: 0b011,
                serial,
                reached: u32::MAX,
            };
            assert_eq!(agree(&case), if serial == 0 { 24 } else { 0 });
        }
    }
}

/// A record and its serials.
#[derive(Clone, Debug, PartialEq, Eq)]
struct Held {
    record: Vec<u8>,
    serials: Vec<u32>,
}

impl Held {
    fn send(&mut self, a: &Arrangement, given: &Sending) {
        let number = Library.change(a, &mut self.record, &mut self.serials, given);
        assert_eq!(number, 0);
    }
}

/// Whichever nodes had the change before, sent to all of W again it leaves what
/// one whole change leaves, and no later send of it alters anything.
#[test]
fn a_broken_send_can_be_repeated() {
    let mut rng = Rng::new(703);
    for _ in 0..5000 {
        let a = any_arrangement(&mut rng);
        let Shape { k, w, n, .. } = a.shape;
        let serial = any_serial(&mut rng).max(1);
        let below = |rng: &mut Rng| rng.below(serial.into()) as u32;
        let mut broken = Held {
            record: rng.bytes(n * a.b),
            serials: (0..n).map(|_| below(&mut rng)).collect(),
        };
        let d = rng.bytes(k * a.b);
        let write = rng.choose(all(n), w);
        let whole = Sending {
            d: &d,
            write,
            serial,
            reached: write,
        };
        let mut at_once = broken.clone();
        at_once.send(&a, &whole);
        for _ in 0..rng.below(4) {
            let reached = rng.word() as u32;
            broken.send(&a, &Sending { reached, ..whole });
        }
        broken.send(&a, &whole);
        assert_eq!(broken, at_once);
        let reached = rng.word() as u32;
        broken.send(&a, &Sending { reached, ..whole });
        assert_eq!(broken, at_once);
    }
}

#[test]
fn readings_after_a_list_are_the_ledger() {
    lists::test(&Library, 707);
}

/// The highest serial stands at each node of R in turn, also at those that are not
/// used; a rebuild of all others, and a rearrangement.
#[test]
fn the_highest_of_r() {
    let mut rng = Rng::new(704);
    for shape in shapes(8) {
        let read = rng.choose(all(shape.n), shape.r);
        for trap in (0..shape.n).filter(|trap| (read >> trap) & 1 == 1) {
            let mut serials: Vec<u32> = (0..shape.n).map(|_| rng.below(9) as u32).collect();
            serials[trap as usize] = 9;
            agree(&Case::Rebuild {
                a: shape.with(1),
                record: rng.bytes(shape.n),
                serials: serials.clone(),
                read,
                lost: all(shape.n) & !read,
            });
            let mut case = right(&mut rng, Call::Rearrangement, shape.with(1));
            if let Case::Rearrangement { serials: old, .. } = &mut case {
                *old = serials;
            }
            assert_eq!(agree(&case), 0);
        }
    }
}

/// The serials of a case: those that are written, and of a rearrangement also
/// those that are read.
fn serials(case: &mut Case) -> Vec<&mut Vec<u32>> {
    match case {
        Case::Setup { serials, .. }
        | Case::Change { serials, .. }
        | Case::Rebuild { serials, .. } => vec![serials],
        Case::Rearrangement {
            serials,
            new_serials,
            ..
        } => vec![new_serials, serials],
        _ => Vec::new(),
    }
}

/// What the buffers that a case writes hold before it.
fn before(case: &Case) -> Held {
    let (record, serials) = match case {
        Case::Setup {
            record, serials, ..
        }
        | Case::Change {
            record, serials, ..
        }
        | Case::Rebuild {
            record, serials, ..
        } => (record, serials),
        Case::Rearrangement {
            new, new_serials, ..
        } => (new, new_serials),
        _ => unreachable!("a call that is lent serials"),
    };
    Held {
        record: record.clone(),
        serials: serials.clone(),
    }
}

fn test_refused(case: &Case, number: u64) {
    assert_eq!(agree(case), number, "{case:x?}");
    let outcome = case.run(&Library);
    let after = Held {
        record: outcome.bytes,
        serials: outcome.serials,
    };
    assert_eq!(after, before(case));
}

/// Serials that are none, one too few, one too many, as many as the bytes, or very
/// many, are refused with 6.
#[test]
fn serials_of_other_lengths() {
    let mut rng = Rng::new(705);
    for shape in shapes(6).chain([Shape::new(16, 24, 24, 32), Shape::new(1, 32, 32, 32)]) {
        for call in LENT_SERIALS {
            let case = right(&mut rng, call, shape.with(2));
            for slice in 0..serials(&mut case.clone()).len() {
                let right = serials(&mut case.clone())[slice].len();
                for length in [0, right - 1, right + 1, 2 * right, 8 * right, 33, 100_000] {
                    if length == right {
                        continue;
                    }
                    let mut other = case.clone();
                    serials(&mut other)[slice].resize(length, 0xD7D7);
                    test_refused(&other, 6);
                }
            }
        }
    }
}

/// A serial of 0 is refused with 24 where all else is right, and by any other
/// question first.
#[test]
fn the_serial_is_asked_after_8() {
    let mut rng = Rng::new(706);
    for shape in shapes(5) {
        let Shape { k, w, n, .. } = shape;
        let a = shape.with(2);
        let write = rng.choose(all(n), w);
        let case = |rng: &mut Rng, a, bytes, serials, write| Case::Change {
            a,
            record: rng.bytes(n * 2),
            serials: any_serials(rng, serials),
            d: rng.bytes(bytes),
            write,
            serial: 0,
            reached: rng.word() as u32,
        };
        let smaller = write & write.wrapping_sub(1);
        for (case, number) in [
            (case(&mut rng, a, k * 2, n, write), 24),
            (case(&mut rng, a, k * 2, n, smaller), 8),
            (case(&mut rng, a, k * 2, n, smaller | 1 << n), 7),
            (case(&mut rng, a, k * 2, n + 1, smaller | 1 << n), 6),
            (case(&mut rng, a, k * 2 + 1, n, write), 6),
            (case(&mut rng, shape.with(0), k * 2, n, write), 5),
            (
                case(&mut rng, Shape { k: 0, ..shape }.with(2), 0, n, write),
                3,
            ),
        ] {
            test_refused(&case, number);
        }
    }
}
