//! The stored vectors, made by another implementation, and the examples.

use reference::cases::Reference;
use reference::season;
use reference::vectors::try_all;
use std::fs;
use std::path::{Path, PathBuf};

const REPOSITORY: &str = concat!(env!("CARGO_MANIFEST_DIR"), "/../..");

/// The files of a folder that have this extension.
fn files(folder: &str, extension: &str) -> Vec<PathBuf> {
    let entries = fs::read_dir(Path::new(REPOSITORY).join(folder)).unwrap();
    let paths = entries.map(|entry| entry.unwrap().path());
    let right = |path: &PathBuf| path.extension().is_some_and(|e| e == extension);
    paths.filter(right).collect()
}

fn test_season(folder: &str) -> usize {
    let inputs = files(folder, "in");
    for path in &inputs {
        let mut output = Vec::new();
        season(&fs::read(path).unwrap(), &mut output).unwrap();
        let expected = fs::read(path.with_extension("out")).unwrap();
        assert!(output == expected, "{}", path.display());
    }
    inputs.len()
}

#[test]
fn calls() {
    let calls = include_str!("../../vectors/calls.txt");
    assert_eq!(try_all(calls, &Reference), Ok(699));
    let loose = include_str!("../../vectors/2026-01-calls.txt");
    assert_eq!(try_all(loose, &Reference), Ok(400));
    let serials = include_str!("../../vectors/2026-03-calls.txt");
    assert!(serials.lines().all(|line| line.contains(" serials=")));
    assert_eq!(try_all(serials, &Reference), Ok(400));
    let columns = include_str!("../../vectors/2026-05-calls.txt");
    assert!(columns.lines().all(|line| line.contains(" column=")));
    assert_eq!(try_all(columns, &Reference), Ok(400));
    let blames = include_str!("../../vectors/2026-06-calls.txt");
    assert!(blames.lines().all(|line| line.contains(" budget=")));
    assert_eq!(try_all(blames, &Reference), Ok(400));
}

#[test]
fn season_files() {
    assert_eq!(test_season("tests/vectors/season"), 222);
    assert_eq!(test_season("tests/vectors/2026-01-season"), 120);
    assert_eq!(test_season("tests/vectors/2026-04-season"), 120);
}

#[test]
fn examples() {
    let count = test_season("examples");
    assert_eq!(files("examples", "hex").len(), count);
}

#[test]
fn examples_are_what_their_hex_says() {
    for path in files("examples", "hex") {
        let text = fs::read_to_string(&path).unwrap();
        let plain = text.lines().filter_map(|line| line.split('#').next());
        let digits: Vec<u32> = plain
            .flat_map(str::chars)
            .filter_map(|c| c.to_digit(16))
            .collect();
        let byte = |pair: &[u32]| (pair[0] * 16 + pair[1]) as u8;
        let bytes: Vec<u8> = digits.chunks(2).map(byte).collect();
        assert!(
            bytes == fs::read(path.with_extension("in")).unwrap(),
            "{}",
            path.display()
        );
    }
}
