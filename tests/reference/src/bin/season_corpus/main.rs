//! season_corpus PROGRAM FOLDER SEED COUNT: runs a season program on the corpus,
//! on the stored files of tests/vectors and examples, through a slow pipe, from
//! a file past the limit and on a worst case, and compares what it writes.
//!
//! Each difference is reported, and its file is written to FOLDER; the exit
//! status is then 1. It is 1 too if some answer or fault never came up, or came
//! up where it cannot.

mod files;
mod judge;
mod program;
mod worst;

use judge::Judge;
use program::Program;
use reference::corpus::{self, Store, DEFAULT_SEED};
use std::io;
use std::path::{Path, PathBuf};
use std::process::ExitCode;

/// The folders of stored files, each with its family.
const STORED: [(&str, &str); 4] = [
    ("examples", "examples"),
    ("vectors", "tests/vectors/season"),
    ("2026-01", "tests/vectors/2026-01-season"),
    ("2026-04", "tests/vectors/2026-04-season"),
];

const DEFAULT_FOLDER: &str = "target/season_corpus";
/// The count of random files if none is asked for.
const DEFAULT_COUNT: u64 = 3000;

struct Arguments {
    program: PathBuf,
    folder: PathBuf,
    seed: u64,
    count: u64,
}

fn arguments() -> Option<Arguments> {
    let mut given = std::env::args().skip(1);
    let program = given.next()?.into();
    let folder = given.next().unwrap_or(DEFAULT_FOLDER.to_string()).into();
    let mut number = |default| given.next().map_or(Some(default), |text| text.parse().ok());
    Some(Arguments {
        program,
        folder,
        seed: number(DEFAULT_SEED)?,
        count: number(DEFAULT_COUNT)?,
    })
}

/// Runs everything; true if nothing differed, and the answers that came up are
/// those that can.
fn run(given: &Arguments) -> io::Result<bool> {
    let program = Program::new(&given.program);
    let judge = Judge::new(&given.folder)?;
    let mut store = Store::new(Box::new(|name, input, output| {
        let found = program.run(input)?;
        judge.compare(name, input, output, &found)
    }));
    let repository = Path::new(env!("CARGO_MANIFEST_DIR")).join("../..");
    for (family, folder) in STORED {
        files::stored(&mut store, family, &repository.join(folder))?;
    }
    corpus::make(&mut store, given.seed, given.count)?;
    let mut tally = store.tally;
    files::slow(&program, &judge, &mut tally)?;
    files::limit(&program, &judge, &mut tally, &given.folder)?;
    worst::run(&program, &judge, &mut tally)?;
    print!("{tally}");
    let missing = tally.missing();
    for (column, answer) in &missing {
        println!("never came up: {column}, answer {answer}");
    }
    let foreign = tally.foreign();
    for (column, answer) in &foreign {
        println!("cannot come up: {column}, answer {answer}");
    }
    println!(
        "files that differ: {} (kept in {})",
        judge.differing(),
        given.folder.display()
    );
    Ok(judge.differing() == 0 && missing.is_empty() && foreign.is_empty())
}

fn main() -> ExitCode {
    let Some(given) = arguments() else {
        eprintln!("use: season_corpus PROGRAM [FOLDER [SEED [COUNT]]]");
        return ExitCode::from(2);
    };
    match run(&given) {
        Ok(true) => ExitCode::SUCCESS,
        Ok(false) => ExitCode::FAILURE,
        Err(why) => {
            eprintln!("{why}");
            ExitCode::from(2)
        }
    }
}
