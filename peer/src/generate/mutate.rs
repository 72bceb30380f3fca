//! Breaks a file in one of many ways.

use super::document::{name_of, value, WORDS};
use super::model::Model;
use super::random::Random;
use super::typed::{latin, odd_body, TYPES};
use std::ops::Range;

/// Texts put in at random places.
const FRAGMENTS: &[&str] = &[
    "<", ">", "&", "\"", "'", "/", "=", " ", "\t", "\r\n", "\0", "\u{b}", "\u{7f}", "\u{80}", "x", "&#65;", "&lt", "&bad;", "&amp;",
    "<!-- c -->", "<![CDATA[x]]>", "<!DOCTYPE ODM>", "<?pi x?>", "<?xml version=\"1.0\" encoding=\"UTF-8\"?>", "</ODM>",
    "<AdminData/>", "<Unknown a=\"1\" a=\"2\"/>", "<Unknown a='1'/>", "<ODM/>", "<ItemData ItemOID=\"X\"/>", "</>", "< />", "<a:b/>",
    "<SubjectData SubjectKey=\"Q\" TransactionType=\"Insert\"/>", "<SubjectData SubjectKey=\"Q\"/>",
    "<ClinicalData StudyOID=\"SU\" MetaDataVersionOID=\"V1\"/>", "<FormData FormOID='F'/>", "<ItemDataString ItemOID=\"X\">x</ItemDataString>",
    "</ItemDataString>", "]]>", "<![CDATA[]]>",
];

const DATES: &[&str] = &[
    "", "2014-02-29T09:00:00", "1900-02-29T00:00:00", "2014-13-01T00:00:00", "2014-00-10T00:00:00", "2014-04-31T00:00:00",
    "2014-04-30T24:00:00", "2014-04-30T23:60:00", "2014-04-30T23:59:60", "0000-01-01T00:00:00", "2014-04-30 23:59:59",
    "2014-4-30T23:59:59", "2014-04-30T23:59:59Z", "2014-04-30T23:59:5", "9999-12-31T23:59:59", "0001-01-01T00:00:00",
    "2000-02-29T12:00:00", "2014-04-30T23:59:5&lt;",
];

struct Attribute {
    /// From the white space before to the closing quote.
    whole: Range<usize>,
    name: Range<usize>,
    value: Range<usize>,
}

/// Tags of a well-formed file.
fn tags(file: &[u8]) -> Vec<Range<usize>> {
    let mut found = Vec::new();
    let mut at = 0;
    while let Some(start) = file[at..].iter().position(|&byte| byte == b'<').map(|step| at + step) {
        let mut quote = 0;
        let ends = |&byte: &u8| {
            match byte {
                b'"' | b'\'' if quote == 0 => quote = byte,
                _ if byte == quote => quote = 0,
                _ => {}
            }
            byte == b'>' && quote == 0
        };
        let Some(len) = file[start..].iter().position(ends) else { break };
        at = start + len + 1;
        found.push(start..at);
    }
    found
}

fn attributes(file: &[u8]) -> Vec<Attribute> {
    let mut found = Vec::new();
    for tag in tags(file) {
        let mut at = tag.start;
        while let Some(open) = (at..tag.end).find(|&at| matches!(file[at], b'"' | b'\'')) {
            let Some(close) = (open + 1..tag.end).find(|&at| file[at] == file[open]) else { break };
            let name_byte = |at: &usize| file[*at].is_ascii_alphanumeric();
            let name_end = (tag.start..open).rev().find(name_byte).map_or(open, |at| at + 1);
            let name_start = (tag.start..name_end).rev().find(|at| !name_byte(at)).map_or(open, |at| at + 1);
            let start = (tag.start..name_start).rev().find(|&at| file[at] > 32).map_or(open, |at| at + 1);
            found.push(Attribute { whole: start..close + 1, name: name_start..name_end, value: open + 1..close });
            at = close + 1;
        }
    }
    found
}

pub fn mutate(random: &mut Random, model: &Model, file: &[u8]) -> Vec<u8> {
    let mut file = file.to_vec();
    if random.chance(40) && break_item(random, &mut file) {
        return file;
    }
    match random.below(20) {
        0 => flip(random, &mut file),
        1 => file.truncate(random.below(file.len())),
        2 => delete(random, &mut file),
        3 | 4 => insert(random, &mut file),
        5 => repeat_attribute(random, &mut file),
        6 => drop_attribute(random, &mut file),
        7 => rename(random, &mut file),
        8 | 9 => revalue(random, &mut file),
        10..=12 => set_word(random, &mut file),
        13 | 14 => move_tags(random, &mut file),
        15 => ends(random, &mut file),
        16..=18 => head(random, model, &mut file),
        _ => strangers(random, &mut file),
    }
    file
}

fn flip(random: &mut Random, file: &mut [u8]) {
    let at = random.below(file.len());
    file[at] = match random.chance(50) {
        true => file[at] ^ 1 << random.below(8),
        false => random.next() as u8,
    };
}

fn delete(random: &mut Random, file: &mut Vec<u8>) {
    let start = random.below(file.len());
    let end = file.len().min(start + 1 + random.below(12));
    file.drain(start..end);
}

/// Often between two tags, where whole tags fit.
fn insert(random: &mut Random, file: &mut Vec<u8>) {
    let tags = tags(file);
    let at = match random.chance(60) && !tags.is_empty() {
        true => random.pick(&tags).start,
        false => random.below(file.len() + 1),
    };
    let fragment = latin(*random.pick(FRAGMENTS));
    file.splice(at..at, fragment);
}

/// The name of the tag that begins at `start`, a closing one's without its `/`.
fn tag_name(file: &[u8], start: usize) -> Range<usize> {
    let start = start + if file[start + 1] == b'/' { 2 } else { 1 };
    let len = file[start..].iter().take_while(|byte| byte.is_ascii_alphanumeric()).count();
    start..start + len
}

/// Breaks a typed item, or sets one beside an item of the other sort; false if the file has no item.
fn break_item(random: &mut Random, file: &mut Vec<u8>) -> bool {
    let is_typed = |name: &[u8]| TYPES.iter().any(|element| element.as_bytes() == name);
    let opens_item = |tag: &Range<usize>| {
        let name = &file[tag_name(file, tag.start)];
        file[tag.start + 1] != b'/' && (name == b"ItemData" || is_typed(name))
    };
    let items: Vec<Range<usize>> = tags(file).into_iter().filter(opens_item).collect();
    if items.is_empty() {
        return false;
    }
    let item = random.pick(&items).clone();
    let name = tag_name(file, item.start);
    if !is_typed(&file[name.clone()]) || random.chance(15) {
        other_sort(random, file, item, is_typed(&file[name]));
    } else {
        break_typed(random, file, item, name);
    }
    true
}

/// An item of the other sort before this one.
fn other_sort(random: &mut Random, file: &mut Vec<u8>, item: Range<usize>, typed: bool) {
    let element = if typed { "ItemData" } else { *random.pick(&TYPES) };
    let word = match random.chance(50) {
        true => format!(" TransactionType=\"{}\"", random.pick(&WORDS)),
        false => String::new(),
    };
    let inside = *random.pick(&["/>", "/>", " Value=\"1\"/>", " Sex='F'/>", " IsNull='No'/>", "></>"]);
    let text = format!("<{element} ItemOID=\"{}\"{word}{}", random.pick(&["OTHER", "SYS", ""]), inside.replace("</>", &format!("</{element}>")));
    file.splice(item.start..item.start, text.into_bytes());
}

/// Another body, type, closing tag or end of a typed item, or an attribute of an untyped one.
fn break_typed(random: &mut Random, file: &mut Vec<u8>, item: Range<usize>, name: Range<usize>) {
    let closed = file[item.end - 2] == b'/';
    let rest = &file[item.end..];
    let body_len = rest.windows(2).position(|pair| pair == b"</").unwrap_or(rest.len());
    let body = item.end..item.end + body_len;
    let other = random.pick(&TYPES).bytes();
    match random.below(12) {
        0 => drop(file.splice(name, other)),
        1 => drop(file.splice(name.end..name.end, random.pick(&[" Value=\"1\"", " IsNull=\"Yes\"", " value=\"\""]).bytes())),
        _ if closed => {
            // Opened, so that what follows is its body.
            drop(file.splice(item.end - 2..item.end, *b">"));
        }
        2 if body.end + 2 < file.len() => {
            let closing = tag_name(file, body.end);
            file.splice(closing, other);
        }
        3 => file.truncate(body.start + random.below(body_len + 3)),
        4 => {
            let at = body.start + random.below(body_len + 1);
            let text = latin(*random.pick(FRAGMENTS));
            file.splice(at..at, text);
        }
        5 => {
            let at = body.start + random.below(body_len + 1);
            file.insert(at, random.next() as u8);
        }
        _ => {
            let new = odd_body(random);
            file.splice(body, new);
        }
    }
}

fn some_attribute(random: &mut Random, file: &[u8]) -> Option<Attribute> {
    let mut all = attributes(file);
    let at = random.below(all.len());
    (!all.is_empty()).then(|| all.swap_remove(at))
}

fn repeat_attribute(random: &mut Random, file: &mut Vec<u8>) {
    let Some(Attribute { whole, .. }) = some_attribute(random, file) else { return };
    let copy = file[whole.clone()].to_vec();
    file.splice(whole.end..whole.end, copy);
}

fn drop_attribute(random: &mut Random, file: &mut Vec<u8>) {
    let Some(Attribute { whole, .. }) = some_attribute(random, file) else { return };
    file.drain(whole);
}

/// Another name for an attribute or an element, known elsewhere or not at all.
fn rename(random: &mut Random, file: &mut Vec<u8>) {
    const NAMES: &[&str] = &[
        "Sex", "SubjectKey", "value", "ItemOID", "xmlns:a", "FormData", "ItemData", "ItemGroupData", "ODM", "AdminData", "1a", "a-b", "",
        "StudyEventData", "SubjectData", "FileOID", "TransactionType", "ItemDataString", "ItemDataInteger", "ItemDataDatetime", "ItemDataDateTime",
    ];
    let new = random.pick(NAMES).bytes();
    if random.chance(50) {
        let Some(Attribute { name, .. }) = some_attribute(random, file) else { return };
        file.splice(name, new);
        return;
    }
    let tags = tags(file);
    let Some(tag) = tags.get(random.below(tags.len())) else { return };
    let name = tag_name(file, tag.start);
    file.splice(name, new);
}

fn revalue(random: &mut Random, file: &mut Vec<u8>) {
    let Some(Attribute { name, value: place, .. }) = some_attribute(random, file) else { return };
    let dated = file[name.clone()].ends_with(b"DateTime");
    let new = match random.below(if dated { 3 } else { 9 }) {
        0..=2 if dated => random.pick(DATES).as_bytes().to_vec(),
        0 => Vec::new(),
        1 => name_of(random, 17),
        2 => name_of(random, 16),
        3 => {
            let len = *random.pick(&[40, 41, 64, 65]);
            name_of(random, len)
        }
        4 => b"&amp;".repeat(*random.pick(&[1, 16, 40, 41, 64, 65])),
        5 => b"\xE9".to_vec(),
        6 => b"No\" Value=\"1".to_vec(),
        7 => b"1\" IsNull=\"Yes".to_vec(),
        _ => {
            let plain = |byte: &u8| !b"<&\"'".contains(byte);
            let len = random.below(45);
            value(random, len).into_iter().filter(plain).collect()
        }
    };
    file.splice(place, new);
}

/// Changes, drops or adds a word.
fn set_word(random: &mut Random, file: &mut Vec<u8>) {
    let is_word = |attribute: &Attribute| file[attribute.name.clone()] == *b"TransactionType";
    let mut words: Vec<Attribute> = attributes(file).into_iter().filter(is_word).collect();
    if words.is_empty() {
        return insert(random, file);
    }
    let at = random.below(words.len());
    let Attribute { whole, value, .. } = words.swap_remove(at);
    if random.chance(15) {
        file.drain(whole);
        return;
    }
    let new = match random.chance(85) {
        true => *random.pick(&WORDS),
        false => *random.pick(&["", "insert", "Insert ", "Delete", "Inserted"]),
    };
    file.splice(value, new.bytes());
}

/// Swaps, drops or doubles whole tags.
fn move_tags(random: &mut Random, file: &mut Vec<u8>) {
    let tags = tags(file);
    if tags.is_empty() {
        return;
    }
    let (one, other) = (random.below(tags.len()), random.below(tags.len()));
    let (first, second) = (tags[one.min(other)].clone(), tags[one.max(other)].clone());
    match random.below(3) {
        0 => drop(file.drain(first)),
        1 => {
            let copy = file[first].to_vec();
            file.splice(second.end..second.end, copy);
        }
        _ if one != other => {
            let (front, back) = (file[first.clone()].to_vec(), file[second.clone()].to_vec());
            file.splice(second, front);
            file.splice(first, back);
        }
        _ => {}
    }
}

/// What stands around the ODM element.
fn ends(random: &mut Random, file: &mut Vec<u8>) {
    match random.below(7) {
        0 => file.extend(b" x"),
        1 => file.extend(b"\n<a/>"),
        2 => file.extend(file.clone()),
        3 => file.extend(b" \r\n\t "),
        4 => drop(file.splice(0..0, *b" \n")),
        5 => file.push(0),
        _ => {
            let end = tags(file).last().map_or(0, |tag| tag.start);
            file.truncate(end);
        }
    }
}

/// Breaks of the series, the study and the fixed texts.
fn head(random: &mut Random, model: &Model, file: &mut Vec<u8>) {
    let standing = match model.files.is_empty() {
        true => b"F1".to_vec(),
        false => random.pick(&model.files).0.clone(),
    };
    let (name, new): (&[u8], Vec<u8>) = match random.below(12) {
        0 => (b"FileOID", standing),
        1 | 2 => (b"PriorFileOID", standing),
        3 => (b"FileType", b"Snapshot".to_vec()),
        4 => (b"FileType", b"Transactional".to_vec()),
        5 => (b"CreationDateTime", b"0001-01-01T00:00:00".to_vec()),
        6 => (b"AsOfDateTime", b"9999-12-31T23:59:59".to_vec()),
        7 => (b"AsOfDateTime", b"0001-01-01T00:00:00".to_vec()),
        8 => (b"StudyOID", b"SU".to_vec()),
        9 => (b"MetaDataVersionOID", b"V".to_vec()),
        10 => (b"ODMVersion", b"1.3.1".to_vec()),
        _ => (b"xmlns", b"http://www.cdisc.org/ns/odm/v1.2".to_vec()),
    };
    let named = attributes(file).into_iter().find(|attribute| file[attribute.name.clone()] == *name);
    match named {
        Some(attribute) => drop(file.splice(attribute.value, new)),
        None => add_to_head(file, name, &new),
    }
}

fn add_to_head(file: &mut Vec<u8>, name: &[u8], value: &[u8]) {
    let Some(start) = file.windows(4).position(|part| part == b"<ODM") else { return };
    let text = [b" ", name, b"=\"", value, b"\""].concat();
    file.splice(start + 4..start + 4, text);
}

/// Many attributes outside the element table, all different or with one twice.
fn strangers(random: &mut Random, file: &mut Vec<u8>) {
    let tags = tags(file);
    let Some(tag) = tags.get(random.below(tags.len())) else { return };
    let count = *random.pick(&[1, 2, 3, 40, 400]);
    let mut text: String = (0..count).map(|n| format!(" a{n}='{n}'")).collect();
    if random.chance(40) {
        text += &format!(" a{}=\"\"", random.below(count));
    }
    let end = if file[tag.end - 2] == b'/' { tag.end - 2 } else { tag.end - 1 };
    file.splice(end..end, text.into_bytes());
}
