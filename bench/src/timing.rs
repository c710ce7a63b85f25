//! Nanoseconds for one call, of several coders side by side.

use crate::case::{Call, Case};
use crate::coder::Coder;
use std::time::{Duration, Instant};

/// How many are compared. The first is the library; a peer that is not
/// installed is none.
pub const CODERS: usize = 4;
pub type Coders = [Option<Box<dyn Coder>>; CODERS];

/// How many results are compared before anything is timed.
const TESTS: usize = 100;

/// How long a window is to take.
const WINDOW: Duration = Duration::from_micros(300);

/// One call at one point.
pub struct Row {
    pub name: &'static str,
    pub at: String,
    call: Call,
    case: Box<dyn Fn() -> Case>,
    /// How many calls of each coder fill a window.
    counts: [u32; CODERS],
    /// The shortest window so far, in nanoseconds for one call.
    pub shortest: [Option<f64>; CODERS],
}

fn time(call: Call, case: &mut Case, coder: &mut dyn Coder, count: u32) -> Duration {
    let start = Instant::now();
    for _ in 0..count {
        call(case, coder);
    }
    start.elapsed()
}

/// By the shortest of a few trials, since one may be interrupted.
fn calls_in_window(call: Call, case: &mut Case, coder: &mut dyn Coder) -> u32 {
    let mut count = 1;
    loop {
        let trials = [(); 5].map(|()| time(call, case, coder, count));
        let shortest = trials.into_iter().min().unwrap_or_default();
        if shortest >= WINDOW / 4 {
            let full = WINDOW.as_nanos() * u128::from(count) / shortest.as_nanos();
            return u32::try_from(full).unwrap_or(u32::MAX).max(1);
        }
        count *= 2;
    }
}

impl Row {
    /// Puts some calls to each coder: all must write the same.
    pub fn new(
        name: &'static str,
        at: String,
        call: Call,
        case: impl Fn() -> Case + 'static,
        coders: &mut Coders,
    ) -> Row {
        let mut installed: Vec<(&mut dyn Coder, Case)> = Vec::new();
        for coder in coders.iter_mut().flatten() {
            installed.push((coder.as_mut(), case()));
        }
        for _ in 0..TESTS {
            for (coder, case) in &mut installed {
                call(case, *coder);
            }
            let mut pairs = installed.windows(2);
            let equal = pairs.all(|pair| pair[0].1.written() == pair[1].1.written());
            assert!(equal, "{name} at {at}: the results differ");
        }
        let mut counts = [1; CODERS];
        for (coder, count) in coders.iter_mut().zip(&mut counts) {
            if let Some(coder) = coder {
                *count = calls_in_window(call, &mut case(), coder.as_mut());
            }
        }
        Row {
            name,
            at,
            call,
            case: Box::new(case),
            counts,
            shortest: [None; CODERS],
        }
    }

    /// Some windows more, in new buffers: one window of each coder in turn, so
    /// that other load on the machine meets all alike.
    pub fn measure(&mut self, coders: &mut Coders, windows: u32) {
        let mut cases: [Case; CODERS] = std::array::from_fn(|_| (self.case)());
        for _ in 0..windows {
            for (i, coder) in coders.iter_mut().enumerate() {
                if let Some(coder) = coder {
                    let (case, count) = (&mut cases[i], self.counts[i]);
                    let time = time(self.call, case, coder.as_mut(), count);
                    let time = time.as_nanos() as f64 / f64::from(count);
                    let shortest = self.shortest[i].map_or(time, |shortest| shortest.min(time));
                    self.shortest[i] = Some(shortest);
                }
            }
        }
    }
}
