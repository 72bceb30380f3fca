//! Expat and libxml2 on the same files, as a measure: each built from bench/parse.c where it is installed.

use crate::timing::{Times, ROUNDS, TIME};
use std::path::{Path, PathBuf};
use std::process::{Command, Stdio};

const SOURCE: &str = concat!(env!("CARGO_MANIFEST_DIR"), "/../bench/parse.c");

pub struct Parser {
    pub name: &'static str,
    /// `None` where it is not installed.
    program: Option<PathBuf>,
}

/// A time, and whether the parser took the file.
pub struct Parsed {
    pub times: Times,
    pub taken: bool,
}

pub fn all(folder: &Path) -> [Parser; 2] {
    [
        parser("expat", "libexpat1-dev", folder, &["-DWITH_EXPAT", SOURCE, "-lexpat"]),
        parser("libxml2", "libxml2-dev", folder, &["-DWITH_LIBXML2", "-I/usr/include/libxml2", SOURCE, "-lxml2"]),
    ]
}

fn parser(name: &'static str, package: &str, folder: &Path, build: &[&str]) -> Parser {
    let program = folder.join(format!("parse-{name}"));
    let built = Command::new("cc").args(["-O2", "-o"]).arg(&program).args(build).stderr(Stdio::null()).status();
    let there = built.is_ok_and(|status| status.success());
    if !there {
        println!("{name} is skipped: it, or a C compiler, is not installed (Debian: {package})");
    }
    Parser { name, program: there.then_some(program) }
}

impl Parser {
    pub fn time(&self, path: &Path) -> Option<Parsed> {
        let rounds = ROUNDS.to_string();
        let seconds = (TIME.as_secs_f64() / 2.0).to_string();
        let ran = Command::new(self.program.as_ref()?).args([rounds, seconds]).arg(path).output().ok()?;
        let printed = String::from_utf8(ran.stdout).ok()?;
        let words: Vec<&str> = printed.split_ascii_whitespace().collect();
        let [least, median, outcome] = words[..] else { return None };
        let times = Times { least: least.parse().ok()?, median: median.parse().ok()? };
        Some(Parsed { times, taken: outcome == "well-formed" })
    }
}
