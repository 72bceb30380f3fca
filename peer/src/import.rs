//! Import: the judging of a file, tag by tag, with each change put in place as it is added.
//!
//! Unused rows and bytes of a valid image are zero, so a refusal is undone by clearing again
//! what was written past the counts; the counts and the file's own row come last.

use crate::image::{self, Counts, CHANGE_BYTES, END, ITEM, MAKE, MOST_BYTES, MOST_CHANGES, MOST_FILES, MOST_LIVE, WRITE};
use crate::live::{Live, Step, ROOT};
use crate::names::{is_date, is_day, is_float, is_integer, is_long_name, packed_len, NAME_LEN, VALUE_LEN};
use crate::scan::{attribute as at, decode, element, Scanner, Shape, Tag};
use crate::{refusal, FILE_LEN};

pub fn import(numbers: &mut [u32], bytes: &mut [u8], file: &[u8]) -> Result<usize, u32> {
    let (counts, live) = image::judge(numbers, bytes)?;
    if file.len() > FILE_LEN {
        return Err(refusal::TOO_LONG);
    }
    let mut reader = Reader::new(numbers, bytes, counts, live);
    match reader.read(file) {
        Ok(head) => {
            let after = Counts { files: counts.files + 1, ..reader.counts };
            image::put_file(numbers, bytes, after, head.oid, head.date);
            Ok(after.changes - counts.changes)
        }
        Err(refusal) => {
            let written = reader.counts;
            image::clear_changes(
                numbers,
                bytes,
                counts.changes..written.changes,
                counts.used..written.used,
            );
            Err(refusal)
        }
    }
}

/// The attributes of each element, in the order of their numbers.
const ELEMENTS: [Element; element::COUNT] = [
    attributes(ODM_REQUIRED, bits(&[at::PRIOR_OID, at::AS_OF, at::DESCRIPTION])),
    attributes(bits(&[at::STUDY_OID, at::VERSION_OID]), 0),
    attributes(bits(&[at::SUBJECT_KEY]), bits(&[at::WORD])),
    attributes(bits(&[at::EVENT_OID]), bits(&[at::EVENT_REPEAT, at::WORD])),
    attributes(bits(&[at::FORM_OID]), bits(&[at::FORM_REPEAT, at::WORD])),
    attributes(bits(&[at::GROUP_OID]), bits(&[at::GROUP_REPEAT, at::WORD])),
    attributes(bits(&[at::ITEM_OID]), bits(&[at::VALUE, at::IS_NULL, at::WORD])),
    TYPED,
    TYPED,
    TYPED,
    TYPED,
    TYPED,
];

/// A typed item has its value in its body.
const TYPED: Element = attributes(bits(&[at::ITEM_OID]), bits(&[at::WORD]));

const ODM_REQUIRED: u32 =
    bits(&[at::XMLNS, at::FILE_TYPE, at::FILE_OID, at::CREATION, at::ODM_VERSION]);

/// How many elements stand around the subjects.
const FRAME: usize = 2;

/// Attribute numbers of the OID and the repeat key at each depth.
const KEY_ATTRIBUTES: [(usize, Option<usize>); ITEM] = [
    (at::SUBJECT_KEY, None),
    (at::EVENT_OID, Some(at::EVENT_REPEAT)),
    (at::FORM_OID, Some(at::FORM_REPEAT)),
    (at::GROUP_OID, Some(at::GROUP_REPEAT)),
    (at::ITEM_OID, None),
];

#[derive(Clone, Copy)]
struct Element {
    required: u32,
    allowed: u32,
}

const fn attributes(required: u32, optional: u32) -> Element {
    Element { required, allowed: required | optional }
}

const fn bits(attributes: &[usize]) -> u32 {
    let mut set = 0;
    let mut next = 0;
    while next < attributes.len() {
        set |= 1 << attributes[next];
        next += 1;
    }
    set
}

#[derive(Clone, Copy, PartialEq, Eq)]
enum Word {
    Insert,
    Update,
    Upsert,
    Remove,
    Context,
}

fn word_of(text: &[u8]) -> Option<Word> {
    Some(match text {
        b"Insert" => Word::Insert,
        b"Update" => Word::Update,
        b"Upsert" => Word::Upsert,
        b"Remove" => Word::Remove,
        b"Context" => Word::Context,
        _ => return None,
    })
}

/// What a word asks for.
#[derive(Clone, Copy, PartialEq, Eq)]
enum Deed {
    Make,
    Write,
    Nothing,
}

fn decide(word: Word, live: bool, valued: bool) -> Result<Deed, u32> {
    let written = if valued { Deed::Write } else { Deed::Nothing };
    match (word, live) {
        (Word::Insert | Word::Upsert, false) => Ok(Deed::Make),
        (Word::Insert, true) => Err(refusal::LIVE),
        (Word::Update | Word::Upsert, true) => Ok(written),
        (Word::Remove | Word::Context, true) => Ok(Deed::Nothing),
        (_, false) => Err(refusal::NOT_LIVE),
    }
}

/// What the store keeps of the ODM tag.
#[derive(Clone, Copy)]
struct Head<'f> {
    oid: &'f [u8],
    date: &'f [u8],
    snapshot: bool,
}

/// An entity whose tag is judged by itself: what it asks of the store.
#[derive(Clone, Copy)]
struct Asked {
    depth: usize,
    step: Step,
    word: Word,
}

/// The open entity of one depth.
#[derive(Clone, Copy)]
struct Open {
    word: Word,
    id: u16,
    /// Length of its key in `path`.
    key_len: usize,
}

/// Longest key: eight names with their length bytes.
const KEY_LEN: usize = 8 * (NAME_LEN + 1);

struct Reader<'s> {
    numbers: &'s mut [u32],
    bytes: &'s mut [u8],
    counts: Counts,
    live: Live,
    /// The key of the innermost open entity as the image writes it.
    path: [u8; KEY_LEN],
    open: [Open; ITEM + 1],
    /// Whether the file's items are typed, once it has one.
    typed: Option<bool>,
}

impl<'s> Reader<'s> {
    fn new(numbers: &'s mut [u32], bytes: &'s mut [u8], counts: Counts, live: Live) -> Reader<'s> {
        let root = Open { word: Word::Context, id: ROOT, key_len: 0 };
        Reader { numbers, bytes, counts, live, path: [0; KEY_LEN], open: [root; ITEM + 1], typed: None }
    }

    fn read<'f>(&mut self, file: &'f [u8]) -> Result<Head<'f>, u32> {
        let mut scanner = Scanner::new(file);
        if !scanner.step()? {
            return Err(refusal::FORM);
        }
        let head = self.odm(&scanner.tag)?;
        let mut level = usize::from(scanner.tag.shape == Shape::Opening);
        while level > 0 {
            if !scanner.step()? {
                return Err(refusal::FORM);
            }
            level = match scanner.tag.element {
                Some(element) if element > element::ITEM => self.typed_item(&mut scanner, element, level, head.snapshot)?,
                _ => self.tag(&scanner.tag, level, head.snapshot)?,
            };
        }
        match scanner.is_done() {
            true => Ok(head),
            false => Err(refusal::FORM),
        }
    }

    /// Judges one tag inside `level` open elements; gives how many are open after it.
    fn tag(&mut self, tag: &Tag, level: usize, snapshot: bool) -> Result<usize, u32> {
        if tag.shape == Shape::Closing {
            if tag.element != Some(level - 1) {
                return Err(refusal::FORM);
            }
            self.close(level - 1)?;
            return Ok(level - 1);
        }
        judge_element(tag, level)?;
        match level < FRAME {
            true => self.clinical_data(tag)?,
            false => {
                if level == element::ITEM {
                    self.judge_sort(false)?;
                }
                self.entity(tag, level - FRAME + 1, snapshot)?;
            }
        }
        if tag.shape == Shape::SelfClosing {
            self.close(level)?;
            return Ok(level);
        }
        Ok(level + 1)
    }

    /// Judges a typed item's tag and, where it has a body, that and the tag behind it; gives how many elements are open then.
    fn typed_item(&mut self, scanner: &mut Scanner, element: usize, level: usize, snapshot: bool) -> Result<usize, u32> {
        let tag = &scanner.tag;
        // Of a typed item that is open the closing tag is read with its body.
        if tag.shape == Shape::Closing {
            return Err(refusal::FORM);
        }
        judge_element(tag, level)?;
        self.judge_sort(true)?;
        let asked = self.asked(tag, ITEM, snapshot)?;
        let mut decoded = [0; VALUE_LEN];
        let value = match tag.shape {
            Shape::SelfClosing => &[],
            _ => {
                let body = scanner.step_over_body()?;
                let tag = &scanner.tag;
                if tag.shape != Shape::Closing {
                    return Err(refusal::ELEMENT);
                }
                if tag.element != Some(element) {
                    return Err(refusal::FORM);
                }
                body.text(&mut decoded).filter(|text| fits(element, text)).ok_or(refusal::VALUE)?
            }
        };
        self.act(&asked, Some(value))?;
        self.close(level)?;
        Ok(level)
    }

    /// All items of a file are of the sort of its first one.
    fn judge_sort(&mut self, typed: bool) -> Result<(), u32> {
        match *self.typed.get_or_insert(typed) == typed {
            true => Ok(()),
            false => Err(refusal::MIXED),
        }
    }

    fn odm<'f>(&self, tag: &Tag<'f>) -> Result<Head<'f>, u32> {
        if tag.shape == Shape::Closing {
            return Err(refusal::FORM);
        }
        judge_element(tag, 0)?;
        let head = odm_values(tag).ok_or(refusal::VALUE)?;
        self.judge_series(tag, &head)?;
        if self.counts.files == MOST_FILES {
            return Err(refusal::LIMIT);
        }
        Ok(head)
    }

    fn judge_series(&self, tag: &Tag, head: &Head) -> Result<(), u32> {
        let standing = |file: usize| image::file_oid(self.numbers, self.bytes, file);
        let files = self.counts.files;
        let prior = tag.value(at::PRIOR_OID);
        let follows = match files {
            0 => prior.is_none(),
            _ => {
                !head.snapshot
                    && prior == Some(standing(files - 1))
                    && head.date >= image::file_date(self.bytes, files - 1)
            }
        };
        let known = (0..files).any(|file| standing(file) == head.oid);
        let late = tag.value(at::CREATION).is_some_and(|creation| head.date > creation);
        if known || late || !follows {
            return Err(refusal::SERIES);
        }
        Ok(())
    }

    fn clinical_data(&self, tag: &Tag) -> Result<(), u32> {
        let study = required(tag, at::STUDY_OID);
        let version = required(tag, at::VERSION_OID);
        if !is_long_name(study) || !is_long_name(version) {
            return Err(refusal::VALUE);
        }
        let ours = study == image::study(self.numbers, self.bytes)
            && version == image::version(self.numbers, self.bytes);
        match ours {
            true => Ok(()),
            false => Err(refusal::STUDY),
        }
    }

    fn entity(&mut self, tag: &Tag, depth: usize, snapshot: bool) -> Result<(), u32> {
        let mut decoded = [0; VALUE_LEN];
        let value = item_value(tag, &mut decoded).ok_or(refusal::VALUE)?;
        let asked = self.asked(tag, depth, snapshot)?;
        self.act(&asked, value)
    }

    /// Judges the names and the word in an entity's tag.
    #[inline(always)]
    fn asked(&self, tag: &Tag, depth: usize, snapshot: bool) -> Result<Asked, u32> {
        let (oid_at, repeat_at) = KEY_ATTRIBUTES[depth - 1];
        let oid = tag.name_of(oid_at).ok_or(refusal::VALUE)?;
        let repeat = match repeat_at {
            Some(number) => tag.name_of(number).ok_or(refusal::VALUE)?,
            None => 0,
        };
        let given = match tag.value(at::WORD) {
            None => None,
            Some(text) => Some(word_of(text).ok_or(refusal::VALUE)?),
        };
        let word = self.word(given, depth, snapshot)?;
        Ok(Asked { depth, step: Step { oid, repeat }, word })
    }

    /// Does what is asked; of a Remove the end comes when the entity is closed.
    #[inline(always)]
    fn act(&mut self, asked: &Asked, value: Option<&[u8]>) -> Result<(), u32> {
        let Asked { depth, step, word } = asked;
        let parent = self.open[depth - 1];
        let place = self.live.find(parent.id, step);
        let deed = decide(*word, place.live.is_some(), value.is_some())?;
        let key_len = self.extend_path(parent.key_len, *depth, step);
        let value = value.unwrap_or(&[]);
        let id = match (deed, place.live) {
            (Deed::Make, _) => {
                self.add_make(*depth, key_len, value)?;
                self.live.make(place, parent.id, step)
            }
            (Deed::Write, Some(id)) => {
                self.add(WRITE, ITEM, key_len, value)?;
                id
            }
            (_, id) => id.unwrap_or(ROOT),
        };
        self.open[*depth] = Open { word: *word, id, key_len };
        Ok(())
    }

    /// The word that holds at an element, its own or its parent's.
    fn word(&self, given: Option<Word>, depth: usize, snapshot: bool) -> Result<Word, u32> {
        let above = match (snapshot, depth) {
            (true, _) => Some(Word::Insert),
            (false, 1) => None,
            (false, _) => Some(self.open[depth - 1].word),
        };
        let word = given.or(above).ok_or(refusal::WORD)?;
        // In a Snapshot and under Remove the word is the one from above.
        let bound = snapshot || above == Some(Word::Remove);
        match bound && above != Some(word) {
            true => Err(refusal::WORD),
            false => Ok(word),
        }
    }

    /// Writes an element's names behind its parent's key.
    fn extend_path(&mut self, from: usize, depth: usize, step: &Step) -> usize {
        let at = self.put_name(from, step.oid);
        match KEY_ATTRIBUTES[depth - 1].1 {
            Some(_) => self.put_name(at, step.repeat),
            None => at,
        }
    }

    /// Zeros behind a short name are overwritten by the next one or lie beyond the key.
    fn put_name(&mut self, at: usize, name: u128) -> usize {
        let len = packed_len(name);
        self.path[at] = len as u8;
        self.path[at + 1..at + 1 + NAME_LEN].copy_from_slice(&name.to_be_bytes());
        at + 1 + len
    }

    fn add_make(&mut self, depth: usize, key_len: usize, value: &[u8]) -> Result<(), u32> {
        if self.live.count() >= MOST_LIVE {
            return Err(refusal::LIMIT);
        }
        self.add(MAKE, depth, key_len, value)
    }

    /// Closes the element with `level` elements around it: a Remove takes effect here.
    fn close(&mut self, level: usize) -> Result<(), u32> {
        if level < FRAME {
            return Ok(());
        }
        let depth = level - FRAME + 1;
        let open = self.open[depth];
        if open.word == Word::Remove {
            self.add(END, depth, open.key_len, &[])?;
            self.live.end(open.id);
        }
        Ok(())
    }

    /// Adds a change of the key in `path`.
    fn add(&mut self, kind: u32, depth: usize, key_len: usize, value: &[u8]) -> Result<(), u32> {
        let end = self.counts.used + key_len + value.len();
        if self.counts.changes == MOST_CHANGES || end > MOST_BYTES {
            return Err(refusal::LIMIT);
        }
        let target = &mut self.bytes[CHANGE_BYTES + self.counts.used..CHANGE_BYTES + end];
        let (key, rest) = target.split_at_mut(key_len);
        key.copy_from_slice(&self.path[..key_len]);
        rest.copy_from_slice(value);
        image::put_change(self.numbers, self.counts.changes, [kind, depth as u32, end as u32]);
        self.counts.changes += 1;
        self.counts.used = end;
        Ok(())
    }
}

/// The element belongs under `level` open ones, each in the one before, and has its attributes.
fn judge_element(tag: &Tag, level: usize) -> Result<(), u32> {
    let here = |&element: &usize| element::level(element) == level;
    let element = &ELEMENTS[tag.element.filter(here).ok_or(refusal::ELEMENT)?];
    let complete = tag.seen & element.required == element.required;
    match complete && !tag.stranger && tag.seen & !element.allowed == 0 {
        true => Ok(()),
        false => Err(refusal::ATTRIBUTE),
    }
}

/// A required attribute, once `judge_element` has found it there.
fn required<'f>(tag: &Tag<'f>, attribute: usize) -> &'f [u8] {
    tag.value(attribute).unwrap_or(&[])
}

fn odm_values<'f>(tag: &Tag<'f>) -> Option<Head<'f>> {
    let snapshot = match required(tag, at::FILE_TYPE) {
        b"Snapshot" => true,
        b"Transactional" => false,
        _ => return None,
    };
    let oid = required(tag, at::FILE_OID);
    let creation = required(tag, at::CREATION);
    let date = tag.value(at::AS_OF).unwrap_or(creation);
    let prior_good = tag.value(at::PRIOR_OID).is_none_or(is_long_name);
    let description_good = tag.value(at::DESCRIPTION).is_none_or(is_description);
    let good = required(tag, at::XMLNS) == b"http://www.cdisc.org/ns/odm/v1.3"
        && required(tag, at::ODM_VERSION) == b"1.3.2"
        && is_long_name(oid)
        && is_date(creation)
        && is_date(date)
        && prior_good
        && description_good;
    good.then_some(Head { oid, date, snapshot })
}

fn is_description(stretch: &[u8]) -> bool {
    decode(stretch, &mut [0; 64]).is_some()
}

/// Whether a text is of the pattern of a typed item. Without a byte it is null, whatever the type.
fn fits(element: usize, text: &[u8]) -> bool {
    let fits: fn(&[u8]) -> bool = match element {
        element::INTEGER => is_integer,
        element::FLOAT => is_float,
        element::DATE => is_day,
        element::DATETIME => is_date,
        _ => return true,
    };
    text.is_empty() || fits(text)
}

/// The decoded value that Value and IsNull give, if one of them stands there; `None` if they are
/// not of their form. Only a stretch with entities is copied.
fn item_value<'v>(tag: &Tag<'v>, decoded: &'v mut [u8; VALUE_LEN]) -> Option<Option<&'v [u8]>> {
    match (tag.value(at::VALUE), tag.value(at::IS_NULL)) {
        (None, None) => Some(None),
        (None, Some(b"Yes")) => Some(Some(&[])),
        (Some(stretch), None) if tag.escaped >> at::VALUE & 1 == 1 => {
            let len = decode(stretch, decoded)?;
            Some(Some(&decoded[..len]))
        }
        (Some(stretch), None) if stretch.len() <= VALUE_LEN => Some(Some(stretch)),
        _ => None,
    }
}
