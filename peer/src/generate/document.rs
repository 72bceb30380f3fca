//! Files that are meant to be accepted, with now and then one wrong step of the machine.

use super::model::{depth_of, Key, Model};
use super::random::Random;
use super::typed::{self, TYPES};
use crate::image::ITEM;

pub const WORDS: [&str; 5] = ["Insert", "Update", "Upsert", "Remove", "Context"];

/// Element, OID attribute and repeat key attribute of each depth.
pub const ELEMENTS: [(&str, &str, &str); ITEM] = [
    ("SubjectData", "SubjectKey", ""),
    ("StudyEventData", "StudyEventOID", "StudyEventRepeatKey"),
    ("FormData", "FormOID", "FormRepeatKey"),
    ("ItemGroupData", "ItemGroupOID", "ItemGroupRepeatKey"),
    ("ItemData", "ItemOID", ""),
];

const OIDS: [&[&str]; ITEM] = [
    &["1", "2", "7", "9", "10", "A-1", "S/2", "x_y.z", "SUBJECT-00000001", "SUBJECT-00000002"],
    &["SCR", "V1", "V10", "V9", "V", "AE"],
    &["VS", "DM", "VS.1", "FORM_WITH_16_CH."],
    &["BP", "BPX", "-"],
    &["SYS", "DIA", "S", "PULSE", "ITEM/0123456789A", "10", "9"],
];
const REPEATS: &[&str] = &["", "", "", "1", "2", "9", "10", "0123456789abcdef"];

/// How one file is written: each fits the same content.
struct Style {
    newline: bool,
    odd_spaces: bool,
    single_quotes: usize,
    shuffled: bool,
}

pub struct Document<'r> {
    random: &'r mut Random,
    model: Model,
    style: Style,
    text: Vec<u8>,
    snapshot: bool,
    /// Its items are typed.
    typed: bool,
    /// Percentage of wrong words and keys.
    wrong: usize,
    /// Children of an element, about.
    width: usize,
}

/// Writes a file that follows the standing ones; `wrong` is the percentage of wrong steps, `width` about the children of an element.
pub fn file(random: &mut Random, model: &Model, wrong: usize, width: usize) -> Vec<u8> {
    let style = Style {
        newline: random.chance(60),
        odd_spaces: random.chance(15),
        single_quotes: *random.pick(&[0, 0, 20, 100]),
        shuffled: random.chance(25),
    };
    let snapshot = model.files.is_empty() && random.chance(20);
    let typed = random.chance(33);
    let text = Vec::new();
    let mut document = Document { random, model: model.clone(), style, text, snapshot, typed, wrong, width };
    document.whole();
    document.text
}

impl Document<'_> {
    fn whole(&mut self) {
        if self.random.chance(40) {
            self.text.extend(crate::scan::DECLARATION);
            self.gap();
        }
        let head = self.head();
        self.tag("ODM", head, false);
        for _ in 0..*self.random.pick(&[0, 1, 1, 1, 1, 1, 2]) {
            let (study, version) = (self.model.study.clone(), self.model.version.clone());
            self.tag("ClinicalData", vec![("StudyOID", study), ("MetaDataVersionOID", version)], false);
            for _ in 0..self.random.below(2 + self.width) {
                self.entity(&Key::new(), None);
            }
            self.close("ClinicalData");
        }
        self.close("ODM");
    }

    fn head(&mut self) -> Vec<(&'static str, Vec<u8>)> {
        let kind = if self.snapshot { "Snapshot" } else { "Transactional" };
        let last = self.model.files.last().map(|(_, date)| date.clone());
        let kept = later(self.random, last.as_deref());
        let mut head = vec![
            ("xmlns", b"http://www.cdisc.org/ns/odm/v1.3".to_vec()),
            ("FileType", kind.into()),
            ("FileOID", new_oid(self.random, &self.model)),
        ];
        if self.random.chance(30) {
            head.push(("CreationDateTime", later(self.random, Some(&kept))));
            head.push(("AsOfDateTime", kept));
        } else {
            head.push(("CreationDateTime", kept));
        }
        head.push(("ODMVersion", b"1.3.2".to_vec()));
        if let Some((prior, _)) = self.model.files.last() {
            head.push(("PriorFileOID", prior.clone()));
        }
        if self.random.chance(10) {
            let len = *self.random.pick(&[0, 1, 20, 63, 64]);
            head.push(("Description", value(self.random, len)));
        }
        head
    }

    /// One entity below `parent`, with its children.
    fn entity(&mut self, parent: &Key, above: Option<&'static str>) {
        let depth = depth_of(parent) + 1;
        let wrong = self.random.chance(self.wrong);
        let Some((word, key)) = self.word_and_key(parent, above, wrong) else { return };
        let (element, oid, repeat) = ELEMENTS[depth - 1];
        let was_live = self.model.live.contains(&key);
        let own_names = &key[parent.len()..];
        let mut attributes = vec![(oid, own_names[0].clone())];
        if own_names.len() > 1 && !own_names[1].is_empty() {
            attributes.push((repeat, own_names[1].clone()));
        }
        // Now and then one of the other sort.
        let typed = depth == ITEM && self.typed != (self.random.chance(self.wrong) && self.random.chance(30));
        if depth == ITEM && !typed {
            self.push_value(&mut attributes);
        }
        let inherited = if self.snapshot { Some("Insert") } else { above };
        if inherited != Some(word) || self.random.chance(30) {
            attributes.push(("TransactionType", word.into()));
        }
        if !was_live && matches!(word, "Insert" | "Upsert") {
            self.model.live.insert(key.clone());
        }
        match typed {
            true => self.typed_item(attributes),
            false => self.element(element, attributes, &key, word),
        }
        if word == "Remove" {
            self.model.remove(&key);
        }
    }

    fn element(&mut self, element: &'static str, attributes: Vec<(&str, Vec<u8>)>, key: &Key, word: &'static str) {
        let children = if depth_of(key) < ITEM { self.random.below(2 + self.width) } else { 0 };
        if children == 0 && self.random.chance(70) {
            self.tag(element, attributes, true);
            return;
        }
        self.tag(element, attributes, false);
        for _ in 0..children {
            self.entity(key, Some(word));
        }
        self.close(element);
    }

    /// An item of one of the types, its body judged under every word.
    fn typed_item(&mut self, mut attributes: Vec<(&str, Vec<u8>)>) {
        let element = *self.random.pick(&TYPES);
        let body = match self.random.chance(self.wrong) {
            true => typed::odd_body(self.random),
            false => {
                let value = typed::good(self.random, element);
                typed::written(self.random, &value)
            }
        };
        if self.random.chance(self.wrong) && self.random.chance(30) {
            self.push_value(&mut attributes);
        }
        if body.is_empty() && self.random.chance(60) {
            return self.tag(element, attributes, true);
        }
        self.tag_alone(element, attributes, false);
        self.text.extend(body);
        self.close(element);
    }

    /// A word and a key that go together, or on purpose do not.
    fn word_and_key(&mut self, parent: &Key, above: Option<&'static str>, wrong: bool) -> Option<(&'static str, Key)> {
        if wrong {
            return Some(self.wrong_word_and_key(parent));
        }
        if self.snapshot {
            return self.new_key(parent).map(|key| ("Insert", key));
        }
        let word = match above {
            Some("Remove") => "Remove",
            Some(word) if self.random.chance(50) => word,
            _ => *self.random.pick(&["Insert", "Insert", "Update", "Upsert", "Upsert", "Remove", "Context"]),
        };
        let key = match word {
            "Insert" => self.new_key(parent),
            "Upsert" => Some(self.any_key(parent)),
            _ => self.live_key(parent),
        };
        match key {
            Some(key) => Some((word, key)),
            None if above == Some("Remove") => None,
            None => Some(("Upsert", self.any_key(parent))),
        }
    }

    /// Insert of what is live, another word for what is not, or anything.
    fn wrong_word_and_key(&mut self, parent: &Key) -> (&'static str, Key) {
        let any = self.any_key(parent);
        match self.random.below(4) {
            0 | 1 => ("Insert", self.live_key(parent).unwrap_or(any)),
            2 => (*self.random.pick(&["Update", "Remove", "Context"]), any),
            _ => (*self.random.pick(&WORDS), any),
        }
    }

    fn any_key(&mut self, parent: &Key) -> Key {
        let depth = depth_of(parent) + 1;
        let mut key = parent.clone();
        let oid = match self.random.chance(10) {
            true => name(self.random),
            false => self.random.pick(OIDS[depth - 1]).as_bytes().to_vec(),
        };
        key.push(oid);
        if (2..ITEM).contains(&depth) {
            key.push(self.random.pick(REPEATS).as_bytes().to_vec());
        }
        key
    }

    fn new_key(&mut self, parent: &Key) -> Option<Key> {
        let tries: Vec<Key> = (0..6).map(|_| self.any_key(parent)).collect();
        tries.into_iter().find(|key| !self.model.live.contains(key))
    }

    fn live_key(&mut self, parent: &Key) -> Option<Key> {
        let children = self.model.children(parent);
        (!children.is_empty()).then(|| self.random.pick(&children).clone())
    }

    fn push_value(&mut self, attributes: &mut Vec<(&str, Vec<u8>)>) {
        match self.random.below(10) {
            0 => {}
            1 => attributes.push(("IsNull", b"Yes".to_vec())),
            2 => attributes.push(("Value", Vec::new())),
            3 => {
                let len = *self.random.pick(&[1, 39, 40]);
                attributes.push(("Value", value(self.random, len)));
            }
            _ => {
                let number = self.random.below(200);
                attributes.push(("Value", number.to_string().into_bytes()));
            }
        }
    }

    fn tag(&mut self, element: &str, attributes: Vec<(&str, Vec<u8>)>, closed: bool) {
        self.tag_alone(element, attributes, closed);
        self.gap();
    }

    /// A tag with nothing behind it.
    fn tag_alone(&mut self, element: &str, mut attributes: Vec<(&str, Vec<u8>)>, closed: bool) {
        if self.style.shuffled {
            self.random.shuffle(&mut attributes);
        }
        self.text.push(b'<');
        self.text.extend(element.bytes());
        for (name, value) in attributes {
            self.attribute(name, &value);
        }
        self.odd_space();
        self.text.extend(if closed { &b"/>"[..] } else { b">" });
    }

    fn attribute(&mut self, name: &str, value: &[u8]) {
        self.text.push(b' ');
        self.odd_space();
        self.text.extend(name.bytes());
        self.odd_space();
        self.text.push(b'=');
        self.odd_space();
        let quote = if self.random.chance(self.style.single_quotes) { b'\'' } else { b'"' };
        self.text.push(quote);
        for &byte in value {
            let written = escape(byte, quote, self.random.chance(50));
            self.text.extend(written.as_bytes());
        }
        self.text.push(quote);
    }

    fn close(&mut self, element: &str) {
        self.text.extend(b"</");
        self.text.extend(element.bytes());
        self.odd_space();
        self.text.push(b'>');
        self.gap();
    }

    fn gap(&mut self) {
        if self.style.newline {
            self.text.push(b'\n');
        }
        self.odd_space();
    }

    fn odd_space(&mut self) {
        if self.style.odd_spaces && self.random.chance(30) {
            for _ in 0..1 + self.random.below(3) {
                self.text.push(*self.random.pick(b" \t\r\n"));
            }
        }
    }
}

/// A byte in a value: escaped where it has to be, or where it may be and `often`.
fn escape(byte: u8, quote: u8, often: bool) -> String {
    let entity = match byte {
        b'<' => "&lt;",
        b'&' => "&amp;",
        b'"' if quote == byte || often => "&quot;",
        b'\'' if quote == byte || often => "&apos;",
        b'>' if often => "&gt;",
        _ => return (byte as char).to_string(),
    };
    entity.into()
}

/// A random value of `len` bytes, rich in bytes that have to be escaped.
pub fn value(random: &mut Random, len: usize) -> Vec<u8> {
    let marked = random.chance(30);
    let byte = |random: &mut Random| match marked && random.chance(60) {
        true => *random.pick(b"<>&\"'"),
        false => 32 + random.below(95) as u8,
    };
    (0..len).map(|_| byte(random)).collect()
}

/// A random name, mostly short.
pub fn name(random: &mut Random) -> Vec<u8> {
    let len = *random.pick(&[1, 2, 3, 8, 15, 16]);
    name_of(random, len)
}

pub fn name_of(random: &mut Random, len: usize) -> Vec<u8> {
    const BYTES: &[u8] = b"ABCDEFGHIJKLMNOPQRSTUVWXYZabcdefghijklmnopqrstuvwxyz0123456789._-/";
    (0..len).map(|_| *random.pick(BYTES)).collect()
}

/// A FileOID that does not stand; those of withdrawn files come back.
pub fn new_oid(random: &mut Random, model: &Model) -> Vec<u8> {
    loop {
        let oid = match random.chance(5) {
            true => {
                let len = *random.pick(&[1, 16, 17, 63, 64]);
                name_of(random, len)
            }
            false => format!("F{}", 1 + random.below(150)).into_bytes(),
        };
        if model.files.iter().all(|(standing, _)| *standing != oid) {
            return oid;
        }
    }
}

/// A date not before another.
pub fn later(random: &mut Random, date: Option<&[u8]>) -> Vec<u8> {
    let number = |date: &[u8], from: usize, to: usize| -> usize {
        date[from..to].iter().fold(0, |sum, &digit| sum * 10 + (digit - b'0') as usize)
    };
    let Some(date) = date else {
        let years = ["0001", "1900", "2000", "2012", "2014", "2014", "2014", "9998"];
        let year = *random.pick(&years);
        return format!("{year}-01-{:02}T{:02}:00:00", 1 + random.below(31), random.below(24)).into_bytes();
    };
    let (year, month) = (number(date, 0, 4), number(date, 5, 7));
    let next = match random.below(12) {
        0 if month < 2 && year % 4 == 0 && (year % 100 != 0 || year % 400 == 0) => format!("{year:04}-02-29T23:59:59"),
        1 if month < 12 => format!("{year:04}-{:02}-01T00:00:00", month + 1),
        2 if year < 9999 && random.chance(30) => format!("{:04}-01-31T09:30:00", year + 1),
        3..=6 => {
            let (hour, minute) = (number(date, 11, 13), number(date, 14, 16));
            let day = String::from_utf8_lossy(&date[..11]).into_owned();
            let minutes = (hour * 60 + minute + 1 + random.below(90)).min(24 * 60 - 1);
            format!("{day}{:02}:{:02}:59", minutes / 60, minutes % 60)
        }
        _ => return date.to_vec(),
    };
    next.into_bytes().max(date.to_vec())
}

#[cfg(test)]
mod tests {
    use super::*;
    use crate::{import, open, BYTES_LEN, NUMBERS_LEN};

    /// The generator's own idea of what is live agrees with the store's.
    #[test]
    fn files_without_wrong_steps_are_taken() {
        let mut random = Random::new(11);
        let mut taken = 0;
        for _ in 0..40 {
            let (mut numbers, mut bytes) = (vec![0; NUMBERS_LEN], vec![0; BYTES_LEN]);
            open(&mut numbers, &mut bytes, b"ST", b"V1");
            for _ in 0..40 {
                let model = Model::of(&numbers, &bytes);
                let text = file(&mut random, &model, 0, 3);
                let answer = import(&mut numbers, &mut bytes, &text);
                assert!([0, 13].contains(&answer.refusal), "{}", String::from_utf8_lossy(&text));
                taken += usize::from(answer.refusal == 0);
            }
        }
        assert!(taken > 1_000, "{taken}");
    }
}
