//! Times of the proved library and of the peer beside each other, in microseconds: least and median of many runs.
//! A word as argument picks the rows whose name holds it.

mod files;
mod parsers;
mod timing;

use files::Image;
use parsers::{Parsed, Parser};
use std::path::{Path, PathBuf};
use std::process::ExitCode;
use timing::{compare, Call, Compared, Times};

fn main() -> ExitCode {
    let folder = match work_folder() {
        Ok(folder) => folder,
        Err(fault) => {
            eprintln!("{fault}");
            return ExitCode::from(2);
        }
    };
    let mut bench = Bench::new(folder);
    bench.stores();
    bench.long_files();
    bench.factors();
    ExitCode::from(u8::from(bench.differs))
}

/// Beside the program, so that nothing is left elsewhere.
fn work_folder() -> std::io::Result<PathBuf> {
    let folder = std::env::current_exe()?.with_file_name("bench-files");
    std::fs::create_dir_all(&folder)?;
    Ok(folder)
}

const ORDINARY: &str = "an ordinary file";

/// The least times of a row: library, peer, and each parser that ran.
type Least = [Option<f64>; 4];

struct Bench {
    folder: PathBuf,
    parsers: [Parser; 2],
    picked: Option<String>,
    /// The rows of the longest files, the ordinary one first.
    long: Vec<(&'static str, Least)>,
    differs: bool,
}

impl Bench {
    fn new(folder: PathBuf) -> Bench {
        let parsers = parsers::all(&folder);
        let bench = Bench { folder, parsers, picked: std::env::args().nth(1), long: Vec::new(), differs: false };
        bench.heading();
        bench
    }

    fn heading(&self) {
        let [one, other] = &self.parsers;
        print!("{:62} {:>19} {:>19} {:>13}", "", "library us", "peer us", "library/peer");
        println!(" {:>16} us {:>16} us", one.name, other.name);
        print!("{:<44} {:>7} {:>2} {:>6}", "call", "bytes", "R", "count");
        print!(" {:>9} {:>9} {:>9} {:>9} {:>6} {:>6}", "least", "median", "least", "median", "least", "median");
        println!(" {:>9} {:>9} {:>9} {:>9}", "least", "median", "least", "median");
    }

    fn stores(&mut self) {
        let empty = files::empty_store();
        self.import("import: large file, empty store", &empty, &files::large());
        self.import("import: large typed file, empty store", &empty, &files::large_typed());
        let stores = [("in order", files::full_in_order()), ("scrambled", files::full_scrambled())];
        for (order, full) in &stores {
            let oid = files::next_oid(full);
            let one_item = files::one_item(full);
            self.import(&format!("import: one item, full store {order}"), full, &one_item);
            let after = after(full, &one_item);
            self.row(&format!("withdraw: of it, full store {order}"), &after, &Call::Withdraw(&oid), None);
            self.row(&format!("snapshot: 500 live, {order}"), full, &Call::Snapshot, None);
            self.import(&format!("judging: file without data, {order}"), full, &files::no_data(full));
        }
    }

    fn long_files(&mut self) {
        let empty = files::empty_store();
        let ordinary = (ORDINARY, files::ordinary());
        for (what, file) in std::iter::once(ordinary).chain(files::hostile()) {
            if let Some(least) = self.import(&format!("import: {what}"), &empty, &file) {
                self.long.push((what, least));
            }
        }
    }

    fn import(&mut self, what: &str, image: &Image, file: &[u8]) -> Option<Least> {
        self.row(what, image, &Call::Import(file), Some(file))
    }

    /// Times and prints a row, if it is picked.
    fn row(&mut self, what: &str, image: &Image, call: &Call, file: Option<&[u8]>) -> Option<Least> {
        if self.picked.as_ref().is_some_and(|word| !what.contains(word)) {
            return None;
        }
        let compared = compare(image, call);
        let path = file.and_then(|file| self.write(file));
        let parsed = self.parsers.each_ref().map(|parser| path.as_deref().and_then(|path| parser.time(path)));
        print_row(what, file.map_or(0, <[u8]>::len), &compared, &parsed);
        self.differs |= compared.answer.is_none();
        let [one, other] = parsed.map(|parsed| parsed.map(|parsed| parsed.times.least));
        Some([Some(compared.library.least), Some(compared.peer.least), one, other])
    }

    /// Where the parsers find a file; `None` if it cannot be written, so that their columns stay empty.
    fn write(&self, file: &[u8]) -> Option<PathBuf> {
        let path: &Path = &self.folder.join("file.xml");
        std::fs::write(path, file).ok()?;
        Some(path.into())
    }

    /// What a hostile file costs against the ordinary one of the same length.
    fn factors(&self) {
        let Some(((ORDINARY, ordinary), hostile)) = self.long.split_first() else { return };
        let [one, other] = &self.parsers;
        println!("x: the parser refused the file, perhaps before its end");
        print!("\n{:<44} {:>9} {:>9}", "times the ordinary file's least", "library", "peer");
        println!(" {:>9} {:>9}", one.name, other.name);
        for (what, least) in hostile {
            print!("{what:<44}");
            for (least, ordinary) in least.iter().zip(ordinary) {
                match (least, ordinary) {
                    (Some(least), Some(ordinary)) => print!(" {:>9.2}", least / ordinary),
                    _ => print!(" {:>9}", "-"),
                }
            }
            println!();
        }
    }
}

/// The store after a file that both take.
fn after(image: &Image, file: &[u8]) -> Image {
    let mut image = image.clone();
    store::import(&mut image.0, &mut image.1, file);
    image
}

fn print_row(what: &str, len: usize, compared: &Compared, parsed: &[Option<Parsed>]) {
    let Compared { library, peer, answer } = compared;
    let (refusal, count) = match answer {
        Some(answer) => (answer.refusal.to_string(), answer.count.to_string()),
        None => ("?".into(), "differ".into()),
    };
    print!("{what:<44} {len:>7} {refusal:>2} {count:>6}{}{}", columns(library, ' '), columns(peer, ' '));
    print!(" {:>6.2} {:>6.2}", library.least / peer.least, library.median / peer.median);
    for parsed in parsed {
        match parsed {
            // A file that was refused may have been left early.
            Some(parsed) => print!("{}", columns(&parsed.times, if parsed.taken { ' ' } else { 'x' })),
            None => print!(" {:>9} {:>9}", "-", "-"),
        }
    }
    println!();
}

fn columns(times: &Times, mark: char) -> String {
    format!("{mark}{:>9.1} {:>9.1}", times.least, times.median)
}
