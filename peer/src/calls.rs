//! Call files: a text of calls, one a line, run over a pair of buffers. See FORMAT.md.

use crate::{import, open, snapshot, withdraw, Answer, BYTES_LEN, NUMBERS_LEN};
use std::io::{self, Write};

/// What an output is filled with before a snapshot.
const FILLING: u8 = 0xAA;
const SLOTS: usize = 4;

/// The image and what a call file keeps beside it.
pub struct Runner {
    pub numbers: Vec<u32>,
    pub bytes: Vec<u8>,
    slots: Vec<Option<(Vec<u32>, Vec<u8>)>>,
    /// Bytes of the last accepted snapshot.
    last_snapshot: Vec<u8>,
}

impl Default for Runner {
    fn default() -> Runner {
        Runner {
            numbers: vec![0; NUMBERS_LEN],
            bytes: vec![0; BYTES_LEN],
            slots: vec![None; SLOTS],
            last_snapshot: Vec::new(),
        }
    }
}

impl Runner {
    /// Runs one line; `Err` says what is wrong with its writing.
    pub fn line(&mut self, line: &str, out: &mut impl Write) -> Result<(), String> {
        let words: Vec<&str> = line.split_ascii_whitespace().collect();
        match words[..] {
            [] => Ok(()),
            [first, ..] if first.starts_with('#') => Ok(()),
            ["numbers", len] => Ok(self.numbers = vec![0; number(len)? as usize]),
            ["bytes", len] => Ok(self.bytes = vec![0; number(len)? as usize]),
            ["pokeN", at, value] => poke(&mut self.numbers, at, number(value)? as u32),
            ["pokeB", at, value] => poke(&mut self.bytes, at, number(value)? as u8),
            ["save", slot] => {
                let image = (self.numbers.clone(), self.bytes.clone());
                Ok(*self.slot(slot)? = Some(image))
            }
            ["load", slot] => {
                let image = self.slot(slot)?.clone().ok_or("nothing saved in this slot")?;
                Ok((self.numbers, self.bytes) = image)
            }
            ["open", study, version] => {
                let answer = open(&mut self.numbers, &mut self.bytes, &unhex(study)?, &unhex(version)?);
                self.report(out, "open", answer, None)
            }
            ["import", file] => self.import(&unhex(file)?, out),
            ["reimport"] => {
                let file = std::mem::take(&mut self.last_snapshot);
                let result = self.import(&file, out);
                self.last_snapshot = file;
                result
            }
            ["withdraw", oid] => {
                let answer = withdraw(&mut self.numbers, &mut self.bytes, &unhex(oid)?);
                self.report(out, "withdraw", answer, None)
            }
            ["snapshot", oid, date, len] => {
                let mut output = vec![FILLING; number(len)? as usize];
                let answer = snapshot(&self.numbers, &self.bytes, &unhex(oid)?, &unhex(date)?, &mut output);
                if answer.refusal == 0 {
                    self.last_snapshot = output[..answer.count as usize].to_vec();
                }
                self.report(out, "snapshot", answer, Some(&output))
            }
            _ => Err("unknown line".into()),
        }
    }

    fn import(&mut self, file: &[u8], out: &mut impl Write) -> Result<(), String> {
        let answer = import(&mut self.numbers, &mut self.bytes, file);
        self.report(out, "import", answer, None)
    }

    fn slot(&mut self, text: &str) -> Result<&mut Option<(Vec<u32>, Vec<u8>)>, String> {
        let at = number(text)? as usize;
        self.slots.get_mut(at).ok_or_else(|| "no such slot".into())
    }

    fn report(
        &self,
        out: &mut impl Write,
        call: &str,
        answer: Answer,
        output: Option<&[u8]>,
    ) -> Result<(), String> {
        let numbers = digest(self.numbers.iter().flat_map(|number| number.to_le_bytes()));
        let bytes = digest(self.bytes.iter().copied());
        let Answer { refusal, count } = answer;
        let mut text = format!("{call} {refusal} {count} {numbers:016x} {bytes:016x}");
        if let Some(output) = output {
            text += &format!(" {:016x}", digest(output.iter().copied()));
        }
        writeln!(out, "{text}").map_err(|fault| fault.to_string())
    }
}

/// Runs a whole call file.
pub fn run(text: &str, out: &mut impl Write) -> io::Result<()> {
    let mut runner = Runner::default();
    for (place, line) in text.lines().enumerate() {
        runner.line(line, out).map_err(|fault| {
            io::Error::new(io::ErrorKind::InvalidData, format!("line {}: {fault}", place + 1))
        })?;
    }
    Ok(())
}

fn poke<T>(buffer: &mut [T], at: &str, value: T) -> Result<(), String> {
    let at = number(at)? as usize;
    let target = buffer.get_mut(at).ok_or("poke beyond the buffer")?;
    *target = value;
    Ok(())
}

fn number(text: &str) -> Result<u64, String> {
    text.parse().map_err(|_| format!("not a number: {text}"))
}

/// FNV-1a, 64 bits.
pub fn digest(bytes: impl Iterator<Item = u8>) -> u64 {
    bytes.fold(0xCBF2_9CE4_8422_2325, |sum, byte| (sum ^ byte as u64).wrapping_mul(0x100_0000_01B3))
}

/// An empty text is written `-`, and a long run of one byte at the end once, with the whole length.
pub fn hex(bytes: &[u8]) -> String {
    const DIGITS: &[u8; 16] = b"0123456789abcdef";
    const LONG: usize = 64;
    let Some(last) = bytes.last() else { return "-".into() };
    let pair = |&byte: &u8| [DIGITS[byte as usize >> 4] as char, DIGITS[byte as usize & 15] as char];
    let run = bytes.iter().rev().take_while(|byte| *byte == last).count();
    match run > LONG {
        true => bytes[..=bytes.len() - run].iter().flat_map(pair).collect::<String>() + &format!("*{}", bytes.len()),
        false => bytes.iter().flat_map(pair).collect(),
    }
}

pub fn unhex(text: &str) -> Result<Vec<u8>, String> {
    if text == "-" {
        return Ok(Vec::new());
    }
    if let Some((start, len)) = text.split_once('*') {
        let (mut bytes, len) = (unhex(start)?, number(len)? as usize);
        let last = *bytes.last().ok_or("no byte to repeat")?;
        if len < bytes.len() {
            return Err("shorter than what is written".into());
        }
        bytes.resize(len, last);
        return Ok(bytes);
    }
    let digit = |byte: u8| (byte as char).to_digit(16).ok_or("not a hex digit");
    if text.len() % 2 == 1 {
        return Err("odd hex text".into());
    }
    let pair = |pair: &[u8]| Ok((digit(pair[0])? * 16 + digit(pair[1])?) as u8);
    text.as_bytes().chunks_exact(2).map(pair).collect()
}

#[cfg(test)]
mod tests {
    use super::*;

    #[test]
    fn digests_are_fnv_1a() {
        assert_eq!(digest(b"".iter().copied()), 0xcbf29ce484222325);
        assert_eq!(digest(b"a".iter().copied()), 0xaf63dc4c8601ec8c);
        assert_eq!(digest(b"foobar".iter().copied()), 0x85944171f73967e8);
    }

    #[test]
    fn hex_goes_both_ways() {
        for bytes in [&b""[..], b"\x00\xffA", &[7; 1_000], &[b"ab", &[b'c'; 65][..]].concat()] {
            assert_eq!(unhex(&hex(bytes)).unwrap(), bytes);
        }
        assert_eq!(hex(&[&b"ab"[..], &[b'c'; 65]].concat()), "616263*67");
        assert_eq!(unhex("6162*3").unwrap(), b"abb");
        for bad in ["*3", "-*3", "6162*1", "61*", "61*3*4"] {
            assert!(unhex(bad).is_err(), "{bad}");
        }
    }

    #[test]
    fn a_snapshot_is_imported_again() {
        let text = "open 5354 5631\nsnapshot 5331 323031342d30332d30325430393a30303a3030 148480\n\
                    save 0\nreimport\nload 0\npokeN 0 65\nwithdraw 5331\nnumbers 1\nwithdraw -\n";
        let mut out = Vec::new();
        run(text, &mut out).unwrap();
        let lines = String::from_utf8(out).unwrap();
        let starts: Vec<String> =
            lines.lines().map(|line| line.split(' ').take(2).collect::<Vec<_>>().join(" ")).collect();
        assert_eq!(starts, ["open 0", "snapshot 0", "import 0", "withdraw 2", "withdraw 1"]);
    }
}
