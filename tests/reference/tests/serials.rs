//! Serials, as request 2026-03 has them: its figures, each call's serials, the law
//! of the broken send, and lists against the ledger.

use reference::calls::{Move, Sending};
use reference::cases::Reference;
use reference::corpus::draft::all;
use reference::corpus::{any_shape, shapes, Rng};
use reference::{change, difference, lists, rearrangement, rebuild, setup, Arrangement, Shape};

/// A record and its serials.
#[derive(Clone, Debug, PartialEq, Eq)]
struct Held {
    record: Vec<u8>,
    serials: Vec<u32>,
}

impl Held {
    fn new(record: &[u8], serials: &[u32]) -> Held {
        Held {
            record: record.to_vec(),
            serials: serials.to_vec(),
        }
    }

    fn any(rng: &mut Rng, a: &Arrangement) -> Held {
        Held {
            record: rng.bytes(a.shape.n * a.b),
            serials: (0..a.shape.n).map(|_| any_serial(rng)).collect(),
        }
    }

    fn send(&mut self, a: &Arrangement, given: &Sending) -> u64 {
        change(a, &mut self.record, &mut self.serials, given)
    }

    fn rebuild(&mut self, a: &Arrangement, read: u32, lost: u32) -> u64 {
        rebuild(a, &mut self.record, &mut self.serials, read, lost)
    }

    /// The number of a rearrangement, and what it leaves in buffers that held
    /// other bytes.
    fn moved(&self, a: &Arrangement, given: &Move) -> (u64, Held) {
        let mut new = Held {
            record: vec![0xEE; (given.to.n * a.b) as usize],
            serials: vec![0xEEEE; given.to.n as usize],
        };
        let Held { record, serials } = &mut new;
        let number = rearrangement(a, &self.record, &self.serials, given, record, serials);
        (number, new)
    }
}

/// Small ones, so that some are equal, and the outermost.
fn any_serial(rng: &mut Rng) -> u32 {
    let any = rng.word() as u32;
    rng.pick(&[0, 1, 2, 3, any, u32::MAX - 1, u32::MAX])
}

fn named(choice: u32, index: usize) -> bool {
    (choice >> index) & 1 == 1
}

/// Every choice of so many of n traps.
fn choices(n: u64, size: u64) -> impl Iterator<Item = u32> {
    (0..=all(n)).filter(move |choice| u64::from(choice.count_ones()) == size)
}

#[test]
fn the_figures() {
    let a = Arrangement::new(1, 2, 2, 3, 1);
    let mut held = Held::new(&[0xEE; 3], &[9, 0, u32::MAX]);
    let Held { record, serials } = &mut held;
    assert_eq!(setup(&a, &[7], &[1], record, serials), 0);
    assert_eq!(held, Held::new(&[0x06, 0x0A, 0x0C], &[0, 0, 0]));
    let mut sent = Sending {
        d: &[5],
        write: 0b011,
        serial: 1,
        reached: 0b001,
    };
    assert_eq!(held.send(&a, &sent), 0);
    assert_eq!(held, Held::new(&[0x00, 0x0A, 0x0C], &[1, 0, 0]));
    sent.reached = 0b011;
    for _ in 0..2 {
        assert_eq!(held.send(&a, &sent), 0);
        assert_eq!(held, Held::new(&[0x00, 0x0C, 0x0C], &[1, 1, 0]));
    }
    assert_eq!(held.rebuild(&a, 0b011, 0b100), 0);
    assert_eq!(held, Held::new(&[0x00, 0x0C, 0x0C], &[1, 1, 1]));
    let given = Move {
        read: 0b011,
        to: Shape::new(1, 2, 3, 4),
        write: 0b111,
        message: &[5],
    };
    let (number, new) = held.moved(&a, &given);
    assert_eq!((number, new.serials), (0, vec![1, 1, 1, 1]));
}

#[test]
fn a_setup_leaves_zeros() {
    let mut rng = Rng::new(31);
    for shape in (1..=6).flat_map(shapes) {
        let a = shape.with(2);
        let mut held = Held::any(&mut rng, &a);
        let (message, slack) = (rng.bytes(shape.k * 2), rng.bytes(shape.l() * 2));
        let Held { record, serials } = &mut held;
        assert_eq!(setup(&a, &message, &slack, record, serials), 0);
        assert_eq!(held.serials, vec![0; shape.n as usize]);
    }
}

/// What a send must leave, trap by trap, by the differences.
fn sent_by_the_text(a: &Arrangement, before: &Held, given: &Sending) -> Held {
    let size = a.b as usize;
    let mut out = vec![0; a.shape.w as usize * size];
    assert_eq!(difference(a, given.d, given.write, &mut out), 0);
    let mut differences = out.chunks(size);
    let mut after = before.clone();
    for index in (0..a.shape.n as usize).filter(|&i| named(given.write, i)) {
        let added = differences.next().unwrap();
        if !named(given.reached, index) || before.serials[index] >= given.serial {
            continue;
        }
        after.serials[index] = given.serial;
        let block = &mut after.record[index * size..(index + 1) * size];
        block.iter_mut().zip(added).for_each(|(x, y)| *x ^= y);
    }
    after
}

/// Every W and every choice reached, with bits above n, of small shapes; serials
/// below, equal and above.
#[test]
fn every_send() {
    let mut rng = Rng::new(32);
    for shape in (1..=5).flat_map(shapes) {
        let a = shape.with(1);
        for write in choices(shape.n, shape.w) {
            for reached in (0..=all(shape.n + 1)).chain([u32::MAX, 1 << 31]) {
                for serial in [1, 2, 3, u32::MAX] {
                    let d = rng.bytes(shape.k);
                    let given = Sending {
                        d: &d,
                        write,
                        serial,
                        reached,
                    };
                    let before = Held::any(&mut rng, &a);
                    let mut after = before.clone();
                    assert_eq!(after.send(&a, &given), 0);
                    assert_eq!(after, sent_by_the_text(&a, &before, &given));
                }
            }
        }
    }
}

/// Serials of traps, none of which has had this one.
fn serials_below(rng: &mut Rng, n: u64, serial: u32) -> Vec<u32> {
    let below = |rng: &mut Rng| rng.below(u64::from(serial)) as u32;
    (0..n).map(|_| below(rng)).collect()
}

/// Whichever traps had the change before the drop, sending it to all of W again
/// gives the record of one whole change: every W, and every order of up to three
/// broken sends.
#[test]
fn a_broken_send_can_be_repeated() {
    let mut rng = Rng::new(33);
    for shape in (1..=4).flat_map(shapes) {
        let a = shape.with(1);
        for write in choices(shape.n, shape.w) {
            let reached = |number: u32| number & all(shape.n);
            for drops in 0..1u32 << (3 * shape.n) {
                let d = rng.bytes(shape.k);
                let serial = rng.pick(&[1, 2, 7, u32::MAX]);
                let serials = serials_below(&mut rng, shape.n, serial);
                let before = Held {
                    record: rng.bytes(shape.n),
                    serials,
                };
                let whole = Sending {
                    d: &d,
                    write,
                    serial,
                    reached: write,
                };
                let mut broken = before.clone();
                for drop in 0..3 {
                    let reached = reached(drops >> (drop * shape.n));
                    assert_eq!(broken.send(&a, &Sending { reached, ..whole }), 0);
                }
                let mut at_once = before.clone();
                assert_eq!(at_once.send(&a, &whole), 0);
                assert_eq!(at_once, sent_by_the_text(&a, &before, &whole));
                assert_eq!(broken.send(&a, &whole), 0);
                assert_eq!(broken, at_once);
                assert_eq!(broken.send(&a, &whole), 0);
                assert_eq!(broken, at_once);
            }
        }
    }
}

/// Two sends of one change are one that reaches the traps of either, whatever the
/// serials were.
#[test]
fn two_sends_are_one() {
    let mut rng = Rng::new(34);
    for _ in 0..20_000 {
        let shape = any_shape(&mut rng, 32);
        let a = shape.with(1);
        let d = rng.bytes(shape.k);
        let given = Sending {
            d: &d,
            write: rng.choose(all(shape.n), shape.w),
            serial: any_serial(&mut rng).max(1),
            reached: 0,
        };
        let mut two = Held::any(&mut rng, &a);
        let mut one = two.clone();
        let (first, second) = (rng.word() as u32, rng.word() as u32);
        for reached in [first, second] {
            assert_eq!(two.send(&a, &Sending { reached, ..given }), 0);
        }
        let reached = first | second;
        assert_eq!(one.send(&a, &Sending { reached, ..given }), 0);
        assert_eq!(two, one);
    }
}

/// The serial that some trap of R has and none exceeds.
fn highest(serials: &[u32], read: u32) -> u32 {
    let of_read = || (0..serials.len()).filter(|&i| named(read, i));
    let most = |&i: &usize| of_read().all(|j| serials[j] <= serials[i]);
    serials[of_read().find(most).unwrap()]
}

/// Rebuilt traps take R's highest, also where one of the r - q traps that are not
/// used has it; all others keep theirs.
#[test]
fn rebuilt_traps_take_the_highest_of_r() {
    let mut rng = Rng::new(35);
    let mut unused = 0;
    for _ in 0..5000 {
        let shape = any_shape(&mut rng, 32);
        let a = shape.with(1);
        let before = Held::any(&mut rng, &a);
        let read = rng.choose(all(shape.n), shape.r);
        let lost = rng.word() as u32 & all(shape.n) & !read;
        let mut after = before.clone();
        assert_eq!(after.rebuild(&a, read, lost), 0);
        let serial = highest(&before.serials, read);
        for index in 0..shape.n as usize {
            let kept = before.serials[index];
            let expected = if named(lost, index) { serial } else { kept };
            assert_eq!(after.serials[index], expected);
        }
        let used: Vec<usize> = (0..32).filter(|&i| named(read, i)).collect();
        let used = &used[..shape.q() as usize];
        unused += u64::from(used.iter().all(|&i| before.serials[i] < serial) && lost != 0);
    }
    assert!(unused > 50, "{unused}");
}

/// Traps of W' and traps above n take R's highest, copied ones keep theirs.
#[test]
fn newly_written_traps_take_the_highest_of_r() {
    let mut rng = Rng::new(36);
    for _ in 0..5000 {
        let (shape, to) = (any_shape(&mut rng, 32), any_shape(&mut rng, 32));
        let a = shape.with(1);
        let held = Held::any(&mut rng, &a);
        let message = rng.bytes(to.k);
        let given = Move {
            read: rng.choose(all(shape.n), shape.r),
            to,
            write: rng.choose(all(to.n), to.w),
            message: &message,
        };
        let (number, new) = held.moved(&a, &given);
        assert_eq!(number, 0);
        let serial = highest(&held.serials, given.read);
        for (index, &found) in new.serials.iter().enumerate() {
            match held.serials.get(index) {
                Some(&kept) if !named(given.write, index) => assert_eq!(found, kept),
                _ => assert_eq!(found, serial),
            }
        }
    }
}

/// Lengths other than n, none and very many among them.
fn wrong_lengths(n: usize) -> impl Iterator<Item = usize> {
    let lengths = [0, n - 1, n + 1, 2 * n, 4 * n, 32, 33, 1000];
    lengths.into_iter().filter(move |&length| length != n)
}

/// Serials of a wrong length are refused with 6, and nothing is written.
#[test]
fn serials_have_their_exact_length() {
    let mut rng = Rng::new(37);
    for shape in (1..=6).flat_map(shapes) {
        let a = shape.with(2);
        let n = shape.n as usize;
        let (message, slack) = (rng.bytes(shape.k * 2), rng.bytes(shape.l() * 2));
        for length in wrong_lengths(n) {
            let mut held = Held::any(&mut rng, &a);
            held.serials.resize(length, 77);
            let before = held.clone();
            let Held { record, serials } = &mut held;
            assert_eq!(setup(&a, &message, &slack, record, serials), 6);
            let given = Sending {
                d: &message,
                write: all(shape.w),
                serial: 9,
                reached: u32::MAX,
            };
            assert_eq!(held.send(&a, &given), 6);
            assert_eq!(held.rebuild(&a, all(shape.r), 0), 6);
            let given = Move {
                read: all(shape.r),
                to: shape,
                write: all(shape.w),
                message: &message,
            };
            assert_eq!(held.moved(&a, &given).0, 6);
            let old = Held::any(&mut rng, &a);
            let Held { record, serials } = &mut held;
            let number = rearrangement(&a, &old.record, &old.serials, &given, record, serials);
            assert_eq!(number, 6);
            assert_eq!(held, before);
        }
    }
}

/// 24 is put after 8; a refused change leaves record and serials.
#[test]
fn the_serial_is_asked_last() {
    let a = Arrangement::new(2, 4, 3, 5, 2);
    let given = Sending {
        d: &[1; 4],
        write: 0b111,
        serial: 0,
        reached: u32::MAX,
    };
    let before = Held::new(&[3; 10], &[0, 1, 2, 3, u32::MAX]);
    for (d, write, serial, expected) in [
        (&[1; 4][..], 0b111, 0, 24),
        (&[1; 4], 0b1111, 0, 8),
        (&[1; 4], 0b10_0111, 0, 7),
        (&[1; 5], 0b10_0111, 0, 6),
        (&[1; 4], 0b1111, 1, 8),
    ] {
        let mut held = before.clone();
        let refused = Sending {
            d,
            write,
            serial,
            ..given
        };
        assert_eq!(held.send(&a, &refused), expected);
        assert_eq!(held, before);
    }
    let mut held = before.clone();
    assert_eq!(held.send(&a, &Sending { serial: 1, ..given }), 0);
    assert_eq!(held.serials, [1, 1, 2, 3, u32::MAX]);
}

#[test]
fn readings_after_a_list_are_the_ledger() {
    lists::test(&Reference, 41);
}
