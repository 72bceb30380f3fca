//! Imports standard input into an empty store and prints the verdict and the snapshot.

use std::io::{self, Read, Write};

fn main() -> io::Result<()> {
    // One byte more than is held tells a longer input apart.
    let mut input = Vec::new();
    io::stdin().take(65_537).read_to_end(&mut input)?;
    io::stdout().write_all(&store::run_program(&input))
}
