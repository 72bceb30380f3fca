//! Writes a call file to standard output: `generate SEED COUNT`.

use std::io::{self, Write};

fn main() -> io::Result<()> {
    let numbers: Vec<u64> = std::env::args().skip(1).filter_map(|word| word.parse().ok()).collect();
    let [seed, count] = numbers[..] else {
        eprintln!("usage: generate SEED COUNT");
        std::process::exit(2);
    };
    io::stdout().write_all(store::generate::call_file(seed, count as usize).as_bytes())
}
