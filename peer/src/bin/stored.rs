//! Writes the stored calls of the proved trial program: `stored SEED FOLDER` writes FOLDER/data/NAME for each file of calls, their
//! names to FOLDER/args and what the peer prints for them to FOLDER/stdout.

use std::fs;
use std::io;
use std::path::Path;

fn main() -> io::Result<()> {
    let words: Vec<String> = std::env::args().skip(1).collect();
    let (Some(seed), Some(folder)) = (words.first().and_then(|word| word.parse().ok()), words.get(1)) else {
        eprintln!("usage: stored SEED FOLDER");
        std::process::exit(2);
    };
    let folder = Path::new(folder);
    fs::create_dir_all(folder.join("data"))?;
    let (mut names, mut printed) = (String::new(), Vec::new());
    for (name, text) in store::generate::stored(seed) {
        store::calls::run(&text, &mut printed)?;
        names += name;
        names.push('\n');
        fs::write(folder.join("data").join(name), text)?;
    }
    fs::write(folder.join("args"), names)?;
    fs::write(folder.join("stdout"), printed)
}
