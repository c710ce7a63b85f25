//! How many sets a check tries in a second where no small set serves, beside the
//! plain way: the blocks of all further nodes decoded anew for each set.

use crate::buffer::Buffer;
use crate::case::{point, Random};
use crate::coder::Coder;
use crate::sets::in_order;
use crate::timing::{Coders, CODERS};
use crate::{point_name, short, NAMES};
use jirvents::Params;
use std::hint::black_box;
use std::time::{Duration, Instant};

pub const POINTS: [Params; 4] = [
    point(1, 8, 4, 10, 16),
    point(1, 8, 4, 10, 1024),
    point(4, 20, 16, 32, 16),
    point(4, 20, 16, 32, 1024),
];

/// The sets of up to two of ten nodes; of 32 nodes some of those of five too.
fn budget(p: Params) -> usize {
    match p.n {
        10 => 56,
        _ => 100_000,
    }
}

/// At most so many sets are decoded anew, evenly taken from those of the budget.
const DECODED: usize = 1000;

/// A run is repeated for so long.
const WINDOW: Duration = Duration::from_millis(2);

/// Seconds of one run, by a window of them.
fn seconds(run: &mut dyn FnMut()) -> f64 {
    let (start, mut count) = (Instant::now(), 0);
    while count == 0 || start.elapsed() < WINDOW {
        run();
        count += 1;
    }
    start.elapsed().as_secs_f64() / f64::from(count)
}

/// A record of any bytes, and sets of which none serves.
struct Search {
    p: Params,
    record: Buffer,
    decoded: Vec<u32>,
}

impl Search {
    fn new(p: Params) -> Search {
        let budget = budget(p);
        let sets = in_order(p.n).take(budget);
        Search {
            p,
            record: Buffer::new(&Random(3).bytes(p.n * p.b)),
            decoded: sets.step_by(budget.div_ceil(DECODED)).collect(),
        }
    }

    fn check(&self, coder: &mut dyn Coder) {
        let found = coder.check(black_box(self.p), self.record.bytes(), budget(self.p));
        assert_eq!(found.tried, budget(self.p), "a search that is stopped");
        black_box(found);
    }

    fn decode(&self, coder: &mut dyn Coder) {
        for &set in &self.decoded {
            let agrees = coder.agrees(black_box(self.p), self.record.bytes(), set);
            assert!(!agrees, "a set that does not serve");
        }
    }

    /// Where few sets are tried, all coders must find the same.
    fn test(&self, coders: &mut Coders) {
        if self.p.n > 10 {
            return;
        }
        let record = self.record.bytes();
        for budget in 0..=60 {
            let coders = coders.iter_mut().flatten();
            let found = coders.map(|coder| coder.check(self.p, record, budget));
            let found: Vec<_> = found.collect();
            let same = found.windows(2).all(|two| two[0] == two[1]);
            assert!(same, "check: the results differ: {found:?}");
        }
    }
}

/// Sets in a second: of a check by the library, and decoded anew by each coder.
struct Rates {
    check: f64,
    anew: [Option<f64>; CODERS],
}

fn rates(search: &Search, coders: &mut Coders, passes: u32) -> Rates {
    let mut rates = Rates {
        check: 0.0,
        anew: [None; CODERS],
    };
    let (budget, decoded) = (budget(search.p) as f64, search.decoded.len() as f64);
    for _ in 0..passes {
        for (i, coder) in coders.iter_mut().enumerate() {
            let Some(coder) = coder else { continue };
            if i == 0 {
                let rate = budget / seconds(&mut || search.check(coder.as_mut()));
                rates.check = rates.check.max(rate);
            }
            let rate = decoded / seconds(&mut || search.decode(coder.as_mut()));
            rates.anew[i] = Some(rates.anew[i].map_or(rate, |most| most.max(rate)));
        }
    }
    rates
}

/// Prints thousands of sets in a second, by the fastest of some windows, and how many
/// times as many a check tries.
pub fn measure(points: &[Params], coders: &mut Coders, passes: u32) {
    print!("| check, stopped | sets | tried, 1000/s |");
    for name in NAMES {
        print!(" anew by {name}, 1000/s | ratio |");
    }
    println!("\n|---|{}", "---:|".repeat(2 * CODERS + 2));
    for &p in points {
        let search = Search::new(p);
        search.test(coders);
        let rates = rates(&search, coders, passes);
        let (name, check) = (point_name(p), rates.check / 1e3);
        print!("| ({name}) B={} | {} | {} |", p.b, budget(p), short(check));
        for anew in rates.anew {
            match anew.map(|rate| rate / 1e3) {
                Some(anew) => print!(" {} | {} |", short(anew), short(check / anew)),
                None => print!(" - | - |"),
            }
        }
        println!();
    }
}
