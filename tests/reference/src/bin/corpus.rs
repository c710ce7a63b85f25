//! corpus DIR SEED COUNT: writes season files and their expected outputs.
//!
//! The fixed part is always written; COUNT is the number of random files. The
//! same seed and count give the same files.

use reference::corpus::{make, Store, DEFAULT_SEED};
use std::fs;
use std::io;
use std::path::PathBuf;
use std::process::ExitCode;

/// The count of random files if none is asked for.
const DEFAULT_COUNT: u64 = 1500;

fn write_corpus(directory: &str, seed: u64, count: u64) -> io::Result<()> {
    let directory = PathBuf::from(directory);
    fs::create_dir_all(&directory)?;
    let mut store = Store::new(Box::new(|name, input, output| {
        fs::write(directory.join(format!("{name}.in")), input)?;
        fs::write(directory.join(format!("{name}.out")), output)
    }));
    make(&mut store, seed, count)?;
    print!("{}", store.tally);
    Ok(())
}

fn number(argument: Option<String>, default: u64) -> Option<u64> {
    argument.map_or(Some(default), |text| text.parse().ok())
}

fn main() -> ExitCode {
    let mut arguments = std::env::args().skip(1);
    let directory = arguments.next();
    let seed = number(arguments.next(), DEFAULT_SEED);
    let count = number(arguments.next(), DEFAULT_COUNT);
    let (Some(directory), Some(seed), Some(count)) = (directory, seed, count) else {
        eprintln!("use: corpus DIR [SEED [COUNT]]");
        return ExitCode::from(2);
    };
    match write_corpus(&directory, seed, count) {
        Ok(()) => ExitCode::SUCCESS,
        Err(why) => {
            eprintln!("{why}");
            ExitCode::FAILURE
        }
    }
}
