//! Small shapes with every choice of traps, also of traps above n.

use library::{agree, any_serial, any_serials, shapes};
use reference::cases::Case;
use reference::corpus::Rng;
use reference::Shape;

/// Every choice of the traps up to n + 1, and two far above.
fn choices(n: u64) -> Vec<u32> {
    let mut choices: Vec<u32> = (0..2 << n).collect();
    choices.extend([1 << 31, u32::MAX]);
    choices
}

#[test]
fn readings_differences_and_changes() {
    let mut rng = Rng::new(301);
    for shape in shapes(7) {
        let Shape { k, w, n, .. } = shape;
        let a = shape.with(2);
        for choice in choices(n) {
            agree(&Case::Reading {
                a,
                record: rng.bytes(n * 2),
                read: choice,
                out: rng.bytes(k * 2),
            });
            agree(&Case::Difference {
                a,
                d: rng.bytes(k * 2),
                write: choice,
                out: rng.bytes(w * 2),
            });
            agree(&Case::Change {
                a,
                record: rng.bytes(n * 2),
                serials: any_serials(&mut rng, n),
                d: rng.bytes(k * 2),
                write: choice,
                serial: any_serial(&mut rng),
                reached: rng.word() as u32,
            });
        }
    }
}

#[test]
fn rebuilds() {
    let mut rng = Rng::new(302);
    for shape in shapes(5) {
        let a = shape.with(1);
        for read in choices(shape.n) {
            for lost in choices(shape.n) {
                agree(&Case::Rebuild {
                    a,
                    record: rng.bytes(shape.n),
                    serials: any_serials(&mut rng, shape.n),
                    read,
                    lost,
                });
            }
        }
    }
}

#[test]
fn rearrangements() {
    let mut rng = Rng::new(303);
    for from in shapes(3) {
        for to in shapes(4) {
            for read in choices(from.n) {
                for write in choices(to.n) {
                    agree(&Case::Rearrangement {
                        a: from.with(1),
                        record: rng.bytes(from.n),
                        serials: any_serials(&mut rng, from.n),
                        read,
                        to,
                        write,
                        message: rng.bytes(to.k),
                        new: rng.bytes(to.n),
                        new_serials: any_serials(&mut rng, to.n),
                    });
                }
            }
        }
    }
}
