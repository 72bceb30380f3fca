//! The files of calls that are stored with the proved trial program: small ones, so that many fit, and made so that each refusal of
//! each call comes up often. Each file is run on its own.

use super::chain::{subject, Writer, BAD_NAMES};
use super::document::{name_of, ELEMENTS};
use super::faults;
use super::random::Random;
use super::typed_calls;
use crate::calls::hex;
use crate::image::{BYTES_LEN, NUMBERS_LEN};
use crate::FILE_LEN;

/// Calls of the chains, in each of their files.
const CHAIN_CALLS: usize = 370;

/// The names of one entity of each depth.
pub const CHAIN: [&str; 5] = ["7", "SCR", "VS", "BP", "SYS"];

/// Names and texts of the files.
pub fn stored(seed: u64) -> Vec<(&'static str, String)> {
    let parts: [(&str, fn(&mut Writer)); 9] = [
        ("lengths", lengths),
        ("limits", limits),
        ("faults", faults::faults),
        ("faults-outer", |writer| faults::entities(writer, 1..=3)),
        ("faults-inner", |writer| faults::entities(writer, 4..=5)),
        ("rebuilt", rebuilt),
        ("chains-1", chains),
        ("chains-2", chains),
        ("typed", typed_calls::typed),
    ];
    let file = |(place, (name, part)): (usize, (&'static str, fn(&mut Writer)))| {
        let mut writer = Writer::new(Random::new(seed + place as u64), true);
        part(&mut writer);
        (name, writer.into_text())
    };
    parts.into_iter().enumerate().map(file).collect()
}

fn chains(writer: &mut Writer) {
    while writer.calls() < CHAIN_CALLS {
        writer.chain();
    }
}

/// Every call on buffers of other lengths, and Open of texts that are no names.
fn lengths(writer: &mut Writer) {
    writer.open();
    writer.import_body(&subject("7", "Insert"));
    writer.snapshot();
    writer.emit("save 2".into());
    let numbers = [0, 1, 5, NUMBERS_LEN - 1, NUMBERS_LEN + 1].map(|len| format!("numbers {len}"));
    let bytes = [0, 1, 128, BYTES_LEN - 1, BYTES_LEN + 1].map(|len| format!("bytes {len}"));
    for line in numbers.into_iter().chain(bytes) {
        writer.emit(line);
        writer.emit("open 5354 5631".into());
        writer.emit("open - 5631".into());
        writer.import();
        writer.emit("reimport".into());
        let (withdraw, snapshot) = (writer.withdraw_line(), writer.snapshot_line());
        writer.emit(withdraw);
        writer.emit(snapshot);
        writer.emit("load 2".into());
    }
    for name in BAD_NAMES.map(hex) {
        writer.emit(format!("open {name} 5631"));
        writer.emit(format!("open 5354 {name}"));
        writer.emit(format!("open {name} {name}"));
    }
}

/// Each limit reached and passed.
fn limits(writer: &mut Writer) {
    let parts: [fn(&mut Writer); 5] =
        [many_files, Writer::many_live, Writer::many_changes, Writer::many_bytes, long_files];
    for part in parts {
        writer.emit_change("open 5354 5631".into());
        part(writer);
    }
}

fn many_files(writer: &mut Writer) {
    writer.many_files();
    (0..3).for_each(|variant| faults::head_faults(writer, variant));
}

/// Files of 262,144 bytes and a few less or more, by their filling: white space behind a good file, or another fault.
fn long_files(writer: &mut Writer) {
    for turn in 0..12 {
        let more = writer.random.below(200);
        for len in [FILE_LEN + 1 + more * usize::from(turn > 2), FILE_LEN - more * usize::from(turn > 2)] {
            let mut file = match turn % 4 {
                0 | 1 => writer.framed(&subject(&format!("long{turn}"), "Insert")),
                2 => b"<ODM xmlns=\"a".to_vec(),
                _ => b"<".to_vec(),
            };
            let filling = *writer.random.pick(if turn % 4 < 2 { b" \n\t\r" } else { b"aX:/" });
            file.resize(len, filling);
            writer.import_file(&file);
        }
        writer.withdraw();
    }
}

/// An entity of a depth, with its word and what is inside, in its ancestors, which have another word.
pub fn nested(depth: usize, above: &str, word: &str, inside: &str) -> String {
    (1..=depth).rev().fold(inside.to_string(), |inside, at| {
        let (element, oid, _) = ELEMENTS[at - 1];
        let word = if at == depth { word } else { above };
        format!("<{element} {oid}=\"{}\" TransactionType=\"{word}\">{inside}</{element}>", CHAIN[at - 1])
    })
}

/// The elements from below a depth down to the item group, with their parent's word, around items.
fn below(depth: usize, items: &str) -> String {
    (depth + 1..5).rev().fold(items.to_string(), |inside, at| {
        let (element, oid, _) = ELEMENTS[at - 1];
        format!("<{element} {oid}=\"{}\">{inside}</{element}>", CHAIN[at - 1])
    })
}

/// Subjects, study events, forms and item groups removed and made again, and files withdrawn to get back what was there.
fn rebuilt(writer: &mut Writer) {
    for turn in 0..16 {
        if turn % 8 == 0 {
            writer.open();
        }
        rebuild(writer, 1 + turn % 4, turn);
        if turn % 8 == 7 {
            withdraw_all(writer);
        }
    }
    many_withdrawals(writer);
}

fn rebuild(writer: &mut Writer, depth: usize, turn: usize) {
    let item = |value: usize| format!("<ItemData ItemOID=\"SYS\" Value=\"{value}\"/>");
    let update = nested(4, "Context", "Update", &item(200 + turn));
    writer.import_body(&nested(4, "Upsert", "Upsert", &(item(turn) + "<ItemData ItemOID=\"DIA\" IsNull=\"Yes\"/>")));
    writer.import_body(&update);
    let listed = if turn % 8 < 4 { String::new() } else { below(depth, "<ItemData ItemOID=\"DIA\"/>") };
    writer.import_body(&nested(depth, "Context", "Remove", &listed));
    writer.import_body(&update);
    writer.snapshot();
    writer.import_body(&nested(depth, "Context", "Insert", &below(depth, "")));
    // What stood below before is not there again.
    writer.import_body(&update);
    writer.snapshot();
    writer.import_body(&nested(4, "Context", "Context", &item(turn).replace("/>", " TransactionType=\"Insert\"/>")));
    writer.import_body(&nested(depth, "Context", "Insert", ""));
    writer.snapshot();
    writer.read_back();
    for _ in 0..writer.random.below(6) {
        writer.withdraw();
        writer.snapshot();
    }
}

/// The right FileOID, the one before it and others, until no file stands, and once more.
fn withdraw_all(writer: &mut Writer) {
    while let Some((oid, _)) = writer.model.files.last().cloned() {
        if writer.random.chance(25) {
            writer.withdraw();
        }
        writer.emit_change(format!("withdraw {}", hex(&oid)));
        if writer.random.chance(25) {
            writer.snapshot();
        }
    }
    writer.emit_change("withdraw 4631".into());
    writer.emit_change("withdraw -".into());
}

/// 64 files, all withdrawn, and some taken again.
fn many_withdrawals(writer: &mut Writer) {
    writer.open();
    for turn in 0..64 {
        let key = name_of(&mut writer.random, 1 + turn % 16);
        writer.import_body(&subject(&String::from_utf8_lossy(&key), "Upsert"));
    }
    withdraw_all(writer);
    for _ in 0..10 {
        writer.import();
    }
    withdraw_all(writer);
}
