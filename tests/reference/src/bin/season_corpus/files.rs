//! Stored files, files through a slow pipe, and files past the limit.

use crate::judge::Judge;
use crate::program::{Pace, Program};
use reference::corpus::{self, Rng, Store, Tally};
use reference::season;
use reference::season::LIMIT;
use std::fs::{self, File};
use std::io::{self, Seek};
use std::path::{Path, PathBuf};
use std::time::Duration;

/// Runs every NAME.in of a folder, which must have its NAME.out.
pub fn stored(store: &mut Store, family: &str, folder: &Path) -> io::Result<()> {
    let mut inputs = inputs_of(folder)?;
    inputs.sort();
    for path in inputs {
        let (input, output) = (fs::read(&path)?, fs::read(path.with_extension("out"))?);
        let stem = path.file_stem().expect("a name").to_string_lossy();
        store.hand_on(family, &format!("{family}-{stem}"), &input, &output)?;
    }
    Ok(())
}

fn inputs_of(folder: &Path) -> io::Result<Vec<PathBuf>> {
    let mut inputs = Vec::new();
    for entry in fs::read_dir(folder)? {
        let path = entry?.path();
        if path.extension().is_some_and(|e| e == "in") {
            inputs.push(path);
        }
    }
    if inputs.is_empty() {
        let why = format!("no season files in {}", folder.display());
        return Err(io::Error::other(why));
    }
    Ok(inputs)
}

/// What the program must write.
fn expected(input: &[u8]) -> io::Result<Vec<u8>> {
    let mut output = Vec::new();
    season(input, &mut output)?;
    Ok(output)
}

/// Files that come by small pieces, with a pause after each.
pub fn slow(program: &Program, judge: &Judge, tally: &mut Tally) -> io::Result<()> {
    let mut rng = Rng::new(corpus::DEFAULT_SEED);
    let small = corpus::example().bytes();
    let large = corpus::file_of_length(&mut rng, 100, LIMIT).bytes();
    let past = [&large[..], &[0; 500]].concat();
    let cases = [
        ("slow-bytes", small, 1),
        ("slow-exact", large, 611),
        ("slow-past", past, 4099),
    ];
    for (name, input, piece) in cases {
        let pause = Duration::from_millis(3);
        let found = program.run_at(&input, Pace { piece, pause })?;
        let output = expected(&input)?;
        tally.add("slow", &input, &output);
        judge.compare(name, &input, &output, &found)?;
    }
    Ok(())
}

/// A file of 70,000 bytes as standard input. The later bytes are not read, so
/// whoever shares the open file finds it no further than the limit.
pub fn limit(program: &Program, judge: &Judge, tally: &mut Tally, folder: &Path) -> io::Result<()> {
    let name = "limit-of-file";
    let mut rng = Rng::new(corpus::DEFAULT_SEED);
    let input = corpus::file_of_length(&mut rng, 100, 70_000).bytes();
    let path = folder.join("standard-input");
    fs::write(&path, &input)?;
    let mut file = File::open(&path)?;
    let found = program.run_from(file.try_clone()?)?;
    let output = expected(&input)?;
    tally.add(name, &input, &output);
    judge.compare(name, &input, &output, &found)?;
    let read = file.stream_position()?;
    if read > LIMIT as u64 {
        judge.report(name, &input, &format!("{read} bytes were read"))?;
    }
    fs::remove_file(&path)
}
