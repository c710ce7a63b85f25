//! Room on the stack. Calls that keep blocks there have several rooms, and take one by
//! the bytes that these blocks have: here are sizes just within each room and just past
//! it, for every number of blocks, held against the reference. (Long searches of checks
//! are in blame.rs. Room for coefficients goes by the shape and the choices: every shape
//! is in calls.rs.)

use library::{about, agree, any_serials, right, shape_with, Call};
use reference::cases::Case;
use reference::corpus::draft::all;
use reference::corpus::{any_shape, Rng};
use reference::Shape;

/// Hands on every number of blocks up to `most`, with the block sizes about each room.
fn each_size(rooms: &[u64], most: u64, mut test: impl FnMut(u64, u64)) {
    for &room in rooms {
        for blocks in 1..=most {
            about(room, blocks).for_each(|b| test(blocks, b));
        }
    }
}

/// The parts of message and slack.
#[test]
fn setups() {
    let mut rng = Rng::new(1001);
    each_size(&[64, 1024, 10_240], 32, |q, b| {
        let n = rng.range(q, 32);
        let a = shape_with(&mut rng, n, q).with(b);
        assert_eq!(agree(&right(&mut rng, Call::Setup, a)), 0);
    });
}

/// The lost blocks.
#[test]
fn rebuilds() {
    let mut rng = Rng::new(1002);
    each_size(&[128, 1024, 8192], 31, |count, b| {
        let n = rng.range(count + 1, 32);
        let r = rng.range(1, n - count);
        let q = rng.range(1, r);
        let shape = Shape {
            r,
            ..shape_with(&mut rng, n, q)
        };
        let mut case = right(&mut rng, Call::Rebuild, shape.with(b));
        if let Case::Rebuild { read, lost, .. } = &mut case {
            *lost = rng.choose(all(n) & !*read, count);
        }
        assert_eq!(agree(&case), 0);
    });
}

/// The old pair's blocks outside W', as many as the new slack has parts.
#[test]
fn rearrangements() {
    let mut rng = Rng::new(1003);
    each_size(&[128, 1024], 31, |l, b| {
        let a = any_shape(&mut rng, 32).with(b);
        let n = rng.range(l + 1, 32);
        let q = rng.range(l + 1, n);
        let to = Shape::new(q - l, rng.range(q, n), n - l, n);
        let case = Case::Rearrangement {
            a,
            record: rng.bytes(a.shape.n * b),
            serials: any_serials(&mut rng, a.shape.n),
            read: rng.choose(all(a.shape.n), a.shape.r),
            to,
            write: rng.choose(all(n), to.w),
            message: rng.bytes(to.k * b),
            new: rng.bytes(n * b),
            new_serials: any_serials(&mut rng, n),
        };
        assert_eq!(agree(&case), 0);
    });
}

/// The blocks of the n - q traps that are compared.
#[test]
fn checks() {
    let mut rng = Rng::new(1004);
    each_size(&[128, 1024], 31, |spare, b| {
        let n = rng.range(spare + 1, 32);
        let a = shape_with(&mut rng, n, n - spare).with(b);
        let mut case = right(&mut rng, Call::Check, a);
        if let Case::Check { budget, .. } = &mut case {
            *budget = 40;
        }
        assert_eq!(agree(&case), 0);
    });
}
