//! The season program: standard input to standard output.

use std::io::{self, BufWriter, Read, Write};

fn main() -> io::Result<()> {
    let mut input = Vec::new();
    let limit = reference::season::LIMIT as u64;
    io::stdin().lock().take(limit).read_to_end(&mut input)?;
    let mut out = BufWriter::new(io::stdout().lock());
    reference::season(&input, &mut out)?;
    out.flush()
}
