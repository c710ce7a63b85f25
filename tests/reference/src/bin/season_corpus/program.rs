//! Running the program under test.

use std::fs::File;
use std::io::{self, Read, Write};
use std::path::{Path, PathBuf};
use std::process::{Child, ChildStdin, ChildStdout, Command, ExitStatus, Stdio};
use std::thread;
use std::time::Duration;

pub struct Program {
    path: PathBuf,
}

/// What a run of the program gave.
pub struct Found {
    pub output: Vec<u8>,
    pub status: ExitStatus,
}

/// The input goes in by pieces of so many bytes, with a pause after each.
#[derive(Clone, Copy)]
pub struct Pace {
    pub piece: usize,
    pub pause: Duration,
}

/// All at once.
pub const FULL: Pace = Pace {
    piece: usize::MAX,
    pause: Duration::ZERO,
};

impl Program {
    pub fn new(path: &Path) -> Program {
        Program {
            path: path.to_path_buf(),
        }
    }

    fn start(&self, input: Stdio) -> io::Result<Child> {
        let mut command = Command::new(&self.path);
        let started = command.stdin(input).stdout(Stdio::piped()).spawn();
        started.map_err(|why| io::Error::new(why.kind(), format!("{}: {why}", self.path.display())))
    }

    pub fn run(&self, input: &[u8]) -> io::Result<Found> {
        self.run_at(input, FULL)
    }

    pub fn run_at(&self, input: &[u8], pace: Pace) -> io::Result<Found> {
        let (output, status) = self.stream(input, pace, read_all)?;
        Ok(Found { output, status })
    }

    /// Feeds the input while `take` reads the output.
    pub fn stream<T>(
        &self,
        input: &[u8],
        pace: Pace,
        take: impl FnOnce(ChildStdout) -> io::Result<T>,
    ) -> io::Result<(T, ExitStatus)> {
        let mut child = self.start(Stdio::piped())?;
        let stdin = child.stdin.take().expect("a pipe");
        let stdout = child.stdout.take().expect("a pipe");
        let taken = thread::scope(|scope| {
            let feeder = scope.spawn(move || feed(stdin, input, pace));
            let taken = take(stdout);
            feeder.join().expect("no panic")?;
            taken
        })?;
        Ok((taken, child.wait()?))
    }

    /// Runs with a file as standard input.
    pub fn run_from(&self, input: File) -> io::Result<Found> {
        let mut child = self.start(Stdio::from(input))?;
        let stdout = child.stdout.take().expect("a pipe");
        Ok(Found {
            output: read_all(stdout)?,
            status: child.wait()?,
        })
    }
}

fn read_all(mut stdout: ChildStdout) -> io::Result<Vec<u8>> {
    let mut output = Vec::new();
    stdout.read_to_end(&mut output)?;
    Ok(output)
}

/// Writes the input. A program that ends before it has read all is no error.
fn feed(mut stdin: ChildStdin, input: &[u8], pace: Pace) -> io::Result<()> {
    for piece in input.chunks(pace.piece) {
        match stdin.write_all(piece) {
            Err(why) if why.kind() == io::ErrorKind::BrokenPipe => return Ok(()),
            result => result?,
        }
        thread::sleep(pace.pause);
    }
    Ok(())
}
