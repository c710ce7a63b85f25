//! The largest sizes there are.

use library::{agree, right, Call};
use reference::corpus::Rng;
use reference::Arrangement;

/// 32 nodes, blocks of 1,024 bytes: half of the nodes as message, and the
/// shapes with the largest k, r and w.
#[test]
fn large_calls() {
    let mut rng = Rng::new(501);
    let shapes = [
        (16, 24, 24),
        (16, 32, 16),
        (16, 16, 32),
        (32, 32, 32),
        (1, 32, 1),
        (1, 1, 32),
        (16, 32, 24),
        (16, 32, 32),
        (1, 32, 32),
    ];
    for (k, r, w) in shapes {
        for call in Call::ALL {
            for _ in 0..3 {
                let case = right(&mut rng, call, Arrangement::new(k, r, w, 32, 1024));
                assert_eq!(agree(&case), 0);
            }
        }
    }
}
