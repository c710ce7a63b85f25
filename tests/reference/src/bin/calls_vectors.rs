//! Runs each line of a file of calls and reports where the answer, what is given
//! beside it, or what the buffers hold after it, is not as the line has it.

use reference::cases::Reference;
use reference::vectors::{try_line, Verdict};
use std::collections::BTreeMap;
use std::process::ExitCode;

/// Counts by call: lines, and lines of each verdict but the first.
#[derive(Default)]
struct Count {
    lines: usize,
    number: usize,
    rest: usize,
}

impl Count {
    fn add(&mut self, verdict: Verdict) {
        self.lines += 1;
        match verdict {
            Verdict::Same => {}
            Verdict::NumberDiffers => self.number += 1,
            Verdict::RestDiffers => self.rest += 1,
        }
    }

    fn differ(&self) -> usize {
        self.number + self.rest
    }
}

fn run_all(text: &str) -> (BTreeMap<String, Count>, usize) {
    let mut counts: BTreeMap<String, Count> = BTreeMap::new();
    let mut unread = 0;
    for (index, line) in text.lines().enumerate() {
        let number = index + 1;
        match try_line(line, &Reference) {
            Ok(tried) => {
                if tried.verdict != Verdict::Same {
                    println!("line {number} {}:", tried.call);
                    println!("  given {}\n  found {}", tried.expected, tried.found);
                }
                let count = counts.entry(tried.call.to_string()).or_default();
                count.add(tried.verdict);
            }
            Err(why) => {
                println!("line {number}: {why}");
                unread += 1;
            }
        }
    }
    (counts, unread)
}

fn print_table(counts: &BTreeMap<String, Count>, unread: usize) {
    println!("call         lines  number   rest");
    for (call, c) in counts {
        println!("{call:<11} {:>6} {:>7} {:>6}", c.lines, c.number, c.rest);
    }
    println!("lines that could not be tried: {unread}");
}

fn main() -> ExitCode {
    let Some(path) = std::env::args().nth(1) else {
        eprintln!("use: calls_vectors FILE");
        return ExitCode::from(2);
    };
    let text = match std::fs::read_to_string(&path) {
        Ok(text) => text,
        Err(why) => {
            eprintln!("{path}: {why}");
            return ExitCode::from(2);
        }
    };
    let (counts, unread) = run_all(&text);
    print_table(&counts, unread);
    let differ: usize = counts.values().map(Count::differ).sum();
    ExitCode::from(u8::from(differ + unread > 0))
}
