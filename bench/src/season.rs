//! The season program on a file that has as many readings as it can hold.

use std::io::{self, BufRead, BufReader, Write};
use std::path::Path;
use std::process::{Child, ChildStdin, Command, Stdio};
use std::thread::{self, JoinHandle};
use std::time::{Duration, Instant};

const PROGRAM: &str = concat!(env!("CARGO_MANIFEST_DIR"), "/../crates/season/out/season");

/// (16,24,24,32), B = 1024.
const ARRANGEMENT: [u16; 5] = [16, 24, 24, 32, 1024];
const MESSAGE: usize = 16 * 1024;
const SLACK: usize = 8 * 1024;

/// A reading: its kind and a node set.
const READING: usize = 5;

/// The longest file that the program reads, and how much of it is no reading.
const FILE: usize = 65_535;
const HEAD: usize = 2 + 10 + 2 + MESSAGE + 2 + SLACK + 2;
const READINGS: usize = (FILE - HEAD) / READING;

fn message() -> Vec<u8> {
    (0..MESSAGE).map(|i| (i * i / 7) as u8).collect()
}

fn file() -> Vec<u8> {
    let mut file = Vec::with_capacity(FILE);
    let number = |file: &mut Vec<u8>, number: usize| {
        let number = u16::try_from(number).expect("two bytes");
        file.extend(number.to_be_bytes());
    };
    number(&mut file, ARRANGEMENT.len());
    file.extend(ARRANGEMENT.iter().flat_map(|number| number.to_be_bytes()));
    number(&mut file, MESSAGE);
    file.extend(message());
    number(&mut file, SLACK);
    file.extend((0..SLACK).map(|i| (i * 5 + 3) as u8));
    number(&mut file, READINGS);
    for i in 0..READINGS {
        // 24 nodes in a row, from another one each time.
        let set = 0x00FF_FFFF_u32.rotate_left(i as u32 % 32);
        file.push(4);
        file.extend(set.to_be_bytes());
    }
    file
}

/// Starts the program and hands it the file.
fn start(file: &[u8], output: Stdio) -> io::Result<(Child, JoinHandle<io::Result<()>>)> {
    let mut command = Command::new(PROGRAM);
    let mut child = command.stdin(Stdio::piped()).stdout(output).spawn()?;
    let mut input: ChildStdin = child.stdin.take().expect("a pipe");
    let file = file.to_vec();
    Ok((child, thread::spawn(move || input.write_all(&file))))
}

/// Tests every line of the output; gives the count of its bytes.
fn test(file: &[u8]) -> io::Result<usize> {
    let (mut child, writer) = start(file, Stdio::piped())?;
    let digits: String = message().iter().map(|byte| format!("{byte:02x}")).collect();
    let mut output = BufReader::new(child.stdout.take().expect("a pipe"));
    let (mut line, mut count) = (String::new(), 0);
    for event in 0..=READINGS {
        line.clear();
        count += output.read_line(&mut line)?;
        let right = match event {
            0 => line == "0 0 0\n",
            _ => {
                let rest = line.strip_prefix(&format!("{event} 4 0 "));
                rest.and_then(|rest| rest.strip_suffix('\n')) == Some(&digits)
            }
        };
        assert!(right, "line {event} of the season program's output");
    }
    assert!(output.fill_buf()?.is_empty(), "output behind the last line");
    writer.join().expect("no panic")?;
    assert!(child.wait()?.success());
    Ok(count)
}

fn run(file: &[u8]) -> io::Result<Duration> {
    let begin = Instant::now();
    let (mut child, writer) = start(file, Stdio::null())?;
    assert!(child.wait()?.success());
    let time = begin.elapsed();
    writer.join().expect("no panic")?;
    Ok(time)
}

/// Prints how fast the program writes, by its fastest run.
pub fn measure(runs: u32) -> io::Result<()> {
    if !Path::new(PROGRAM).exists() {
        println!("season: - (build the program first)");
        return Ok(());
    }
    let file = file();
    let count = test(&file)?;
    let times: io::Result<Vec<Duration>> = (0..runs).map(|_| run(&file)).collect();
    let fastest = times?.into_iter().min().expect("a run");
    let [k, r, w, n, b] = ARRANGEMENT;
    let rate = count as f64 / fastest.as_secs_f64() / 1e6;
    println!(
        "season: {READINGS} readings at ({k},{r},{w},{n}) B={b}, {:.0} MB of output in {:.2} s: {rate:.0} MB/s",
        count as f64 / 1e6,
        fastest.as_secs_f64(),
    );
    Ok(())
}
