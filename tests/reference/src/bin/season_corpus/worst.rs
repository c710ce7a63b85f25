//! The worst case: as much output as one event can bring about, many times,
//! compared as it comes.

use crate::judge::Judge;
use crate::program::{Program, FULL};
use reference::corpus::draft::{damage, reading, Draft};
use reference::corpus::{Rng, Tally, DEFAULT_SEED};
use reference::{season, Arrangement};
use std::io::{self, Read, Write};
use std::process::ChildStdout;

const DAMAGES: u64 = 16;
const READINGS_AFTER_EACH: usize = 25;

/// k = n = 32 and blocks of 1,024 bytes: damages, and readings after each.
fn draft() -> Draft {
    let mut rng = Rng::new(DEFAULT_SEED);
    let mut draft = Draft {
        arrangement: Arrangement::new(32, 32, 32, 32, 1024),
        message: rng.bytes(32 * 1024),
        slack: Vec::new(),
        events: Vec::new(),
    };
    for trap in 1..=DAMAGES {
        let traps = 1 << (2 * trap - 1);
        draft.events.push(damage(traps, &rng.bytes(1024)));
        let readings = vec![reading(u32::MAX); READINGS_AFTER_EACH];
        draft.events.extend(readings);
    }
    draft
}

/// Holds the program's output against each line that is written to it.
struct Comparison<'a> {
    found: ChildStdout,
    place: usize,
    first_difference: Option<usize>,
    tally: &'a mut Tally,
}

impl Write for Comparison<'_> {
    fn write(&mut self, line: &[u8]) -> io::Result<usize> {
        self.tally.add_line(line);
        if self.first_difference.is_none() {
            let mut found = Vec::new();
            let mut part = (&mut self.found).take(line.len() as u64);
            part.read_to_end(&mut found)?;
            if found != line {
                self.first_difference = Some(self.place);
            }
            self.place += line.len();
        }
        Ok(line.len())
    }

    fn flush(&mut self) -> io::Result<()> {
        Ok(())
    }
}

impl Comparison<'_> {
    /// Where the output first differs, if only by what is left of it.
    fn finish(mut self) -> io::Result<Option<usize>> {
        let rest = io::copy(&mut self.found, &mut io::sink())?;
        let longer = (rest > 0).then_some(self.place);
        Ok(self.first_difference.or(longer))
    }
}

pub fn run(program: &Program, judge: &Judge, tally: &mut Tally) -> io::Result<()> {
    let (name, input) = ("worst", draft().bytes());
    tally.add_file(name, &input);
    let (difference, status) = program.stream(&input, FULL, |found| {
        let mut comparison = Comparison {
            found,
            place: 0,
            first_difference: None,
            tally,
        };
        season(&input, &mut comparison)?;
        comparison.finish()
    })?;
    match difference {
        Some(place) => {
            let what = format!("output differs in the line at byte {place}");
            judge.report(name, &input, &what)
        }
        None => judge.test_status(name, &input, status),
    }
}
