//! Runs a call file, given as a path or on standard input, and prints one line for each call.

use std::io::{self, BufWriter, Read, Write};

fn main() -> io::Result<()> {
    let mut text = String::new();
    match std::env::args().nth(1) {
        Some(path) => text = std::fs::read_to_string(path)?,
        None => {
            io::stdin().read_to_string(&mut text)?;
        }
    }
    let mut out = BufWriter::new(io::stdout().lock());
    store::calls::run(&text, &mut out)?;
    out.flush()
}
