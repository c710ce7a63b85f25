//! Reports differences and keeps the files that show them.

use crate::program::Found;
use std::cell::Cell;
use std::fs;
use std::io;
use std::path::{Path, PathBuf};
use std::process::ExitStatus;

pub struct Judge {
    folder: PathBuf,
    differing: Cell<usize>,
}

impl Judge {
    pub fn new(folder: &Path) -> io::Result<Judge> {
        fs::create_dir_all(folder)?;
        Ok(Judge {
            folder: folder.to_path_buf(),
            differing: Cell::new(0),
        })
    }

    pub fn differing(&self) -> usize {
        self.differing.get()
    }

    /// Tests a run's output and exit status.
    pub fn compare(
        &self,
        name: &str,
        input: &[u8],
        expected: &[u8],
        found: &Found,
    ) -> io::Result<()> {
        if found.output != expected {
            let place = first_difference(expected, &found.output);
            self.report(name, input, &format!("output differs at byte {place}"))?;
            self.keep(&format!("{name}.expected"), expected)?;
            self.keep(&format!("{name}.found"), &found.output)?;
        } else {
            self.test_status(name, input, found.status)?;
        }
        Ok(())
    }

    pub fn test_status(&self, name: &str, input: &[u8], status: ExitStatus) -> io::Result<()> {
        if !status.success() {
            self.report(name, input, &status.to_string())?;
        }
        Ok(())
    }

    pub fn report(&self, name: &str, input: &[u8], what: &str) -> io::Result<()> {
        println!("{name}: {what}");
        self.differing.set(self.differing.get() + 1);
        self.keep(&format!("{name}.in"), input)
    }

    fn keep(&self, name: &str, bytes: &[u8]) -> io::Result<()> {
        fs::write(self.folder.join(name), bytes)
    }
}

fn first_difference(expected: &[u8], found: &[u8]) -> usize {
    let both = expected.iter().zip(found);
    both.take_while(|(e, f)| e == f).count()
}
