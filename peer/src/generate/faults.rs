//! One fault and two faults at one tag: of two the lower number is given.

use super::chain::Writer;
use super::document::{new_oid, ELEMENTS};
use super::stored::{nested, CHAIN};
use std::ops::RangeInclusive;

/// A tag that is to be spoiled. The text before a tag is judged with it.
pub(super) struct Tag {
    before: &'static str,
    pub(super) element: String,
    attributes: Vec<(&'static str, String)>,
}

impl Tag {
    pub(super) fn new(element: &str, attributes: Vec<(&'static str, String)>) -> Tag {
        Tag { before: "", element: element.into(), attributes }
    }

    pub(super) fn set(&mut self, name: &'static str, value: &str) {
        match self.attributes.iter_mut().find(|(other, _)| *other == name) {
            Some((_, old)) => *old = value.into(),
            None => self.attributes.push((name, value.into())),
        }
    }

    pub(super) fn drop(&mut self, name: &str) {
        self.attributes.retain(|(other, _)| *other != name);
    }

    /// The faults that any tag may have: 4, 5 and 6.
    pub(super) fn spoil(&mut self, number: u32, variant: usize) {
        let (name, value) = self.attributes[0].clone();
        match (number, variant % 3) {
            (4, 0) => self.attributes.push((name, value)),
            (4, 1) => self.before = " x ",
            (4, _) => self.attributes.push(("a", "&bad;".into())),
            (5, 0) => self.element = "AdminData".into(),
            (5, 1) => self.element += "X",
            (5, _) => self.element = if self.element == "ItemData" { "ODM".into() } else { "ItemData".into() },
            (6, 0) => self.attributes.push(("Sex", "F".into())),
            (6, 1) => self.drop(name),
            (6, _) => self.attributes.insert(0, ("value", String::new())),
            other => unreachable!("not a fault of any tag: {other:?}"),
        }
    }

    fn written(&self, inside: &str) -> String {
        format!("{}{inside}</{}>", self.opening(">"), self.element)
    }

    /// The tag alone, with its end.
    pub(super) fn opening(&self, end: &str) -> String {
        let Tag { before, element, attributes } = self;
        let attributes: String = attributes.iter().map(|(name, value)| format!(" {name}=\"{value}\"")).collect();
        format!("{before}<{element}{attributes}{end}")
    }
}

/// Each number alone and each pair, in the order in which they are judged: of a pair the first is given.
pub(super) fn pairs(numbers: &[u32]) -> Vec<Vec<u32>> {
    let alone = numbers.iter().map(|&number| vec![number]);
    let two = numbers.iter().enumerate().flat_map(|(place, &low)| numbers[place + 1..].iter().map(move |&high| vec![low, high]));
    alone.chain(two).collect()
}

/// Faults of the ODM tag and of ClinicalData, and of words in a Snapshot.
pub fn faults(writer: &mut Writer) {
    writer.emit_change("open 5354 5631".into());
    snapshot_words(writer);
    writer.import_body(&nested(5, "Insert", "Insert", ""));
    (0..3).for_each(|variant| head_faults(writer, variant));
    (0..3).for_each(|variant| study_faults(writer, variant));
    other_studies(writer);
    closing_faults(writer);
}

/// Faults of an entity's tag on a store with 512 live entities, so that a new one is a 13.
pub fn entities(writer: &mut Writer, depths: RangeInclusive<usize>) {
    writer.emit_change("open 5354 5631".into());
    writer.import_body(&nested(5, "Insert", "Insert", ""));
    fill(writer);
    for depth in depths {
        (0..3).for_each(|variant| entity_faults(writer, depth, variant));
    }
}

/// Imports a file that has to be refused with a number.
fn refuse(writer: &mut Writer, file: &str, number: u32) {
    assert_eq!(writer.import_file(file.as_bytes()), number, "{file}");
}

pub(super) fn refuse_body(writer: &mut Writer, body: &str, number: u32) {
    assert_eq!(writer.import_body(body), number, "{body}");
}

/// Up to 512 live entities.
fn fill(writer: &mut Writer) {
    let live = writer.model.live.len();
    let body: String = (live..512).map(|n| format!("<SubjectData SubjectKey='L{n}' TransactionType='Insert'/>")).collect();
    assert_eq!(writer.import_body(&body), 0);
}

/// The last standing FileOID, and an ODM tag that follows it.
fn head(writer: &mut Writer) -> (String, Tag) {
    let text = |bytes: &[u8]| String::from_utf8_lossy(bytes).into_owned();
    let (last, date) = writer.model.files.last().cloned().expect("a file stands");
    let oid = new_oid(&mut writer.random, &writer.model);
    let attributes = vec![
        ("ODMVersion", "1.3.2".into()),
        ("xmlns", "http://www.cdisc.org/ns/odm/v1.3".into()),
        ("FileType", "Transactional".into()),
        ("FileOID", text(&oid)),
        ("CreationDateTime", text(&date)),
        ("PriorFileOID", text(&last)),
    ];
    (text(&last), Tag::new("ODM", attributes))
}

/// Faults of the ODM tag, with 64 files standing each beside a 13.
pub fn head_faults(writer: &mut Writer, variant: usize) {
    let full = writer.model.files.len() == 64;
    for faults in pairs(&[4, 5, 6, 7, 9, 13]) {
        if full != faults.contains(&13) {
            continue;
        }
        let (last, mut tag) = head(writer);
        for &number in faults.iter().rev() {
            match (number, variant) {
                (7, 0) => tag.set("xmlns", "http://www.cdisc.org/ns/odm/v1.2"),
                (7, 1) => tag.set("AsOfDateTime", "2014-02-29T09:00:00"),
                (7, _) => tag.set("Description", &"d".repeat(65)),
                (9, 0) => tag.drop("PriorFileOID"),
                (9, 1) => tag.set("FileOID", &last),
                (9, _) => tag.set("FileType", "Snapshot"),
                (13, _) => {}
                _ => tag.spoil(number, variant),
            }
        }
        refuse(writer, &tag.written(""), faults[0]);
    }
}

fn study_faults(writer: &mut Writer, variant: usize) {
    for faults in pairs(&[4, 5, 6, 7, 8]) {
        let mut tag = Tag::new("ClinicalData", vec![("StudyOID", "ST".into()), ("MetaDataVersionOID", "V1".into())]);
        for &number in faults.iter().rev() {
            match (number, variant) {
                (7, 0) => tag.set("StudyOID", ""),
                (7, _) => tag.set("StudyOID", &"S".repeat(65)),
                (8, 0) => tag.set("MetaDataVersionOID", "V2"),
                (8, _) => tag.set("MetaDataVersionOID", "v1"),
                _ => tag.spoil(number, variant),
            }
        }
        let body = format!("</ClinicalData>{}<ClinicalData StudyOID=\"ST\" MetaDataVersionOID=\"V1\">", tag.written(""));
        refuse_body(writer, &body, faults[0]);
    }
}

/// Another study or version, that nearly is this one.
fn other_studies(writer: &mut Writer) {
    for (study, version) in [("S", "V1"), ("STT", "V1"), ("st", "V1"), ("V1", "ST"), ("ST", "V"), ("ST", "V10"), ("ST", "V-1"), ("SU", "V2")] {
        let file = String::from_utf8(writer.framed("")).expect("ASCII");
        let file = file.replace("StudyOID=\"ST\"", &format!("StudyOID=\"{study}\""));
        refuse(writer, &file.replace("VersionOID=\"V1\"", &format!("VersionOID=\"{version}\"")), 8);
    }
}

fn entity_faults(writer: &mut Writer, depth: usize, variant: usize) {
    for faults in pairs(&[4, 5, 6, 7, 10, 11, 12, 13]) {
        let has = |number: u32| faults.contains(&number);
        // Of these a tag has one; and a subject whose word is missing has none.
        if faults[0] > 10 && faults.len() == 2 || depth == 1 && faults[0] == 10 && faults.len() == 2 {
            continue;
        }
        let (element, oid, repeat) = ELEMENTS[depth - 1];
        let live = !has(12) && !has(13);
        let name = if live { CHAIN[depth - 1] } else { "new" };
        let word = match (has(11) || has(13), has(12)) {
            (true, _) => "Insert",
            // Remove would be the right word under Remove.
            (_, true) => if has(10) { "Update" } else { ["Update", "Remove", "Context"][variant] },
            _ => "Context",
        };
        let mut tag = Tag::new(element, vec![(oid, name.into()), ("TransactionType", word.into())]);
        for &number in faults.iter().rev() {
            match number {
                7 => bad_value(&mut tag, depth, oid, repeat, variant),
                10 if depth == 1 => tag.drop("TransactionType"),
                10..=13 => {}
                _ => tag.spoil(number, variant),
            }
        }
        let above = if has(10) { "Remove" } else { "Context" };
        let body = if depth == 1 { tag.written("") } else { nested(depth - 1, "Context", above, &tag.written("")) };
        refuse_body(writer, &body, faults[0]);
    }
}

fn bad_value(tag: &mut Tag, depth: usize, oid: &'static str, repeat: &'static str, variant: usize) {
    match (depth, variant) {
        (1, 0) => tag.set(oid, ""),
        (1, _) => tag.set(oid, "12345678901234567"),
        (5, 0) => tag.set("IsNull", "No"),
        (5, 1) => {
            tag.set("Value", "");
            tag.set("IsNull", "Yes");
        }
        (5, _) => tag.set("Value", &"v".repeat(41)),
        (_, 0) => tag.set(repeat, ""),
        (_, 1) => tag.set(repeat, "12345678901234567"),
        _ => tag.set(repeat, "a b"),
    }
}

/// A Snapshot's word other than Insert, of what is not live, on an empty store.
fn snapshot_words(writer: &mut Writer) {
    for word in ["Update", "Remove", "Context", "Upsert"] {
        for depth in 1..=5 {
            let file = String::from_utf8(writer.framed(&nested(depth, "Insert", word, ""))).expect("ASCII");
            refuse(writer, &file.replace("Transactional", "Snapshot"), 10);
        }
    }
}

/// A closing tag with text before it, under another name, missing, or with an attribute.
fn closing_faults(writer: &mut Writer) {
    let good = nested(3, "Context", "Context", "");
    for (from, to) in [("</FormData>", " x </FormData>"), ("</FormData>", "</formData>"), ("</FormData>", ""), ("</FormData>", "</FormData a=\"1\">")] {
        refuse_body(writer, &good.replace(from, to), 4);
    }
}
