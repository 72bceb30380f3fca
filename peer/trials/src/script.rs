//! A call file as a list of steps that can be dropped and shortened.

use store::calls::{hex, unhex};

/// Bytes on the heap without one to spare, so that valgrind sees the first one past the end.
pub type Exact = Box<[u8]>;

#[derive(Clone, Debug, PartialEq)]
pub enum Step {
    Numbers(usize),
    Bytes(usize),
    PokeNumber(usize, u32),
    PokeByte(usize, u8),
    Save(usize),
    Load(usize),
    Open { study: Exact, version: Exact },
    Import(Exact),
    Reimport,
    Withdraw(Exact),
    Snapshot { oid: Exact, date: Exact, len: usize },
}

/// Reads a call file; `Err` says which line cannot be read.
pub fn parse(text: &str) -> Result<Vec<Step>, String> {
    let mut steps = Vec::new();
    for (place, line) in text.lines().enumerate() {
        let words: Vec<&str> = line.split_ascii_whitespace().collect();
        if words.first().is_none_or(|word| word.starts_with('#')) {
            continue;
        }
        steps.push(step(&words).map_err(|fault| format!("line {}: {fault}", place + 1))?);
    }
    Ok(steps)
}

fn step(words: &[&str]) -> Result<Step, String> {
    Ok(match *words {
        ["numbers", len] => Step::Numbers(number(len)?),
        ["bytes", len] => Step::Bytes(number(len)?),
        ["pokeN", at, value] => Step::PokeNumber(number(at)?, number(value)?),
        ["pokeB", at, value] => Step::PokeByte(number(at)?, number(value)?),
        ["save", slot] => Step::Save(number(slot)?),
        ["load", slot] => Step::Load(number(slot)?),
        ["open", study, version] => Step::Open { study: exact(study)?, version: exact(version)? },
        ["import", file] => Step::Import(exact(file)?),
        ["reimport"] => Step::Reimport,
        ["withdraw", oid] => Step::Withdraw(exact(oid)?),
        ["snapshot", oid, date, len] => Step::Snapshot { oid: exact(oid)?, date: exact(date)?, len: number(len)? },
        _ => return Err("unknown line".into()),
    })
}

fn number<T: std::str::FromStr>(word: &str) -> Result<T, String> {
    word.parse().map_err(|_| format!("not a number of this place: {word}"))
}

fn exact(word: &str) -> Result<Exact, String> {
    Ok(unhex(word)?.into_boxed_slice())
}

/// Writes a call file, with the texts of short arguments as remarks for the reader.
pub fn print(steps: &[Step]) -> String {
    steps.iter().map(|step| remark(step) + &line(step) + "\n").collect()
}

fn line(step: &Step) -> String {
    match step {
        Step::Numbers(len) => format!("numbers {len}"),
        Step::Bytes(len) => format!("bytes {len}"),
        Step::PokeNumber(at, value) => format!("pokeN {at} {value}"),
        Step::PokeByte(at, value) => format!("pokeB {at} {value}"),
        Step::Save(slot) => format!("save {slot}"),
        Step::Load(slot) => format!("load {slot}"),
        Step::Open { study, version } => format!("open {} {}", hex(study), hex(version)),
        Step::Import(file) => format!("import {}", hex(file)),
        Step::Reimport => "reimport".into(),
        Step::Withdraw(oid) => format!("withdraw {}", hex(oid)),
        Step::Snapshot { oid, date, len } => format!("snapshot {} {} {len}", hex(oid), hex(date)),
    }
}

fn remark(step: &Step) -> String {
    const LONGEST: usize = 4_000;
    match step {
        Step::Import(file) if file.len() <= LONGEST => format!("# {} bytes: {}\n", file.len(), readable(file)),
        Step::Import(file) => format!("# {} bytes\n", file.len()),
        Step::Open { study, version } => format!("# {} {}\n", readable(study), readable(version)),
        Step::Withdraw(oid) => format!("# {}\n", readable(oid)),
        Step::Snapshot { oid, date, .. } => format!("# {} {}\n", readable(oid), readable(date)),
        _ => String::new(),
    }
}

/// On one line; quotes as they are, since every file is full of them.
fn readable(bytes: &[u8]) -> String {
    bytes.escape_ascii().to_string().replace("\\\"", "\"").replace("\\'", "'")
}

#[cfg(test)]
mod tests {
    use super::*;

    #[test]
    fn a_printed_script_reads_back_as_itself() {
        let steps = parse(&store::generate::call_file(3, 300)).unwrap();
        assert_eq!(parse(&print(&steps)).unwrap(), steps);
    }

    #[test]
    fn what_cannot_be_read_is_named_by_its_line() {
        assert_eq!(parse("open 5354 5631\n\nimport 5\n").unwrap_err(), "line 3: odd hex text");
        assert!(parse("pokeB 0 256").is_err());
    }
}
