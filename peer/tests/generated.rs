//! Generated call files against slow readings of the definitions.

mod slow;

use slow::{fits, is_date, TYPES};
use std::collections::{BTreeMap, BTreeSet};
use std::path::Path;
use store::calls::{unhex, Runner};
use store::generate::{call_file, stored};
use store::{snapshot, BYTES_LEN, FILE_LEN, NUMBERS_LEN, SNAPSHOT_LEN};

type Key = Vec<Vec<u8>>;

#[derive(Clone)]
struct Change {
    kind: u32,
    depth: usize,
    key: Key,
    value: Vec<u8>,
}

fn names(depth: usize) -> usize {
    [0, 1, 3, 5, 7, 8][depth]
}

fn is_name(text: &[u8], most: usize) -> bool {
    let good = |byte: &u8| byte.is_ascii_alphanumeric() || b"._-/".contains(byte);
    (1..=most).contains(&text.len()) && text.iter().all(good)
}

/// The image written again from what was read out of it: equal if the layout holds.
#[derive(Clone)]
struct Read {
    study: Vec<u8>,
    version: Vec<u8>,
    files: Vec<(Vec<u8>, Vec<u8>, u32, u32)>,
    changes: Vec<Change>,
}

fn read(numbers: &[u32], bytes: &[u8]) -> Option<Read> {
    let (files, changes) = (numbers[0] as usize, numbers[1] as usize);
    if files > 64 || changes > 2_048 || numbers[2] > 49_152 || numbers[3] > 64 || numbers[4] > 64 {
        return None;
    }
    let file = |file: usize| {
        let row = &numbers[5 + 3 * file..][..3];
        let slot = &bytes[128 + 83 * file..][..83];
        let oid = slot[..64].get(..row[0] as usize)?.to_vec();
        Some((oid, slot[64..].to_vec(), row[1], row[2]))
    };
    let mut start = 0;
    let mut list = Vec::new();
    for row in numbers[197..197 + 3 * changes].chunks(3) {
        let part = bytes[5_440..].get(start..row[2] as usize)?;
        list.push(read_change(row[0], row[1] as usize, part)?);
        start = row[2] as usize;
    }
    Some(Read {
        study: bytes[..numbers[3] as usize].to_vec(),
        version: bytes[64..64 + numbers[4] as usize].to_vec(),
        files: (0..files).map(file).collect::<Option<_>>()?,
        changes: list,
    })
}

fn read_change(kind: u32, depth: usize, part: &[u8]) -> Option<Change> {
    if !(1..=3).contains(&kind) || !(1..=5).contains(&depth) || (kind == 2 && depth != 5) {
        return None;
    }
    let mut rest = part;
    let mut key = Key::new();
    for place in 0..names(depth) {
        let (&len, behind) = rest.split_first()?;
        let name = behind.get(..len as usize)?;
        let may_be_absent = [2, 4, 6].contains(&place);
        if !is_name(name, 16) && !(may_be_absent && name.is_empty()) {
            return None;
        }
        key.push(name.to_vec());
        rest = &behind[len as usize..];
    }
    let valued = depth == 5 && kind != 3;
    let good = rest.iter().all(|byte| (32..=126).contains(byte)) && rest.len() <= if valued { 40 } else { 0 };
    good.then(|| Change { kind, depth, key, value: rest.to_vec() })
}

fn written(read: &Read) -> (Vec<u32>, Vec<u8>) {
    let (mut numbers, mut bytes) = (vec![0; NUMBERS_LEN], vec![0; BYTES_LEN]);
    bytes[..read.study.len()].copy_from_slice(&read.study);
    bytes[64..64 + read.version.len()].copy_from_slice(&read.version);
    for (place, (oid, date, changes, used)) in read.files.iter().enumerate() {
        numbers[5 + 3 * place..][..3].copy_from_slice(&[oid.len() as u32, *changes, *used]);
        bytes[128 + 83 * place..][..oid.len()].copy_from_slice(oid);
        bytes[128 + 83 * place + 64..][..19].copy_from_slice(date);
    }
    let mut end = 0;
    for (place, change) in read.changes.iter().enumerate() {
        let mut part: Vec<u8> = change.key.iter().flat_map(|name| [&[name.len() as u8][..], name].concat()).collect();
        part.extend(&change.value);
        bytes[5_440 + end..][..part.len()].copy_from_slice(&part);
        end += part.len();
        numbers[197 + 3 * place..][..3].copy_from_slice(&[change.kind, change.depth as u32, end as u32]);
    }
    let counts = [read.files.len(), read.changes.len(), end, read.study.len(), read.version.len()];
    numbers[..5].copy_from_slice(&counts.map(|count| count as u32));
    (numbers, bytes)
}

/// What is live, with values.
type Live = BTreeMap<Key, Vec<u8>>;

/// Takes one change; `None` if it is not allowed.
fn take(live: &mut Live, change: &Change) -> Option<()> {
    let is_live = live.contains_key(&change.key);
    let parent = &change.key[..names(change.depth - 1)];
    let parent_live = change.depth == 1 || live.contains_key(parent);
    let allowed = if change.kind == 1 { !is_live && parent_live } else { is_live };
    if !allowed {
        return None;
    }
    match change.kind {
        3 => live.retain(|key, _| !key.starts_with(&change.key)),
        _ => drop(live.insert(change.key.clone(), change.value.clone())),
    }
    (live.len() <= 512).then_some(())
}

/// What is live after all changes; `None` if one is not allowed in turn.
fn replay(changes: &[Change]) -> Option<Live> {
    let mut live = Live::new();
    changes.iter().try_for_each(|change| take(&mut live, change))?;
    Some(live)
}

/// The live entities of a valid image.
fn judge(numbers: &[u32], bytes: &[u8]) -> Option<(Read, Live)> {
    let read = read(numbers, bytes)?;
    let (same_numbers, same_bytes) = written(&read);
    let end = |changes: u32| if changes == 0 { 0 } else { numbers[197 + 3 * (changes as usize - 1) + 2] };
    let oids: BTreeSet<&Vec<u8>> = read.files.iter().map(|file| &file.0).collect();
    let files = &read.files;
    let last = files.last().map_or((0, 0), |file| (file.2, file.3));
    let good = same_numbers == numbers
        && same_bytes == bytes
        && is_name(&read.study, 64)
        && is_name(&read.version, 64)
        && oids.len() == files.len()
        && files.iter().all(|file| is_name(&file.0, 64) && is_date(&file.1) && file.2 <= numbers[1] && file.3 == end(file.2))
        && files.windows(2).all(|pair| pair[0].1 <= pair[1].1 && pair[0].2 <= pair[1].2)
        && last == (numbers[1], numbers[2]);
    if !good {
        return None;
    }
    let live = replay(&read.changes)?;
    Some((read, live))
}

/// The snapshot of what is live, S1 of 2014-03-02.
fn snapshot_text(read: &Read, live: &Live) -> Vec<u8> {
    let text = |bytes: &[u8]| String::from_utf8(bytes.to_vec()).unwrap();
    let elements = [("SubjectData", "SubjectKey"), ("StudyEventData", "StudyEvent"), ("FormData", "Form"), ("ItemGroupData", "ItemGroup")];
    let mut out = format!(
        "<?xml version=\"1.0\" encoding=\"UTF-8\"?>\n<ODM xmlns=\"http://www.cdisc.org/ns/odm/v1.3\" FileType=\"Snapshot\" \
         FileOID=\"S1\" CreationDateTime=\"2014-03-02T09:00:00\" ODMVersion=\"1.3.2\">\n<ClinicalData StudyOID=\"{}\" \
         MetaDataVersionOID=\"{}\">\n",
        text(&read.study),
        text(&read.version)
    );
    let mut open: Vec<&Key> = Vec::new();
    for (key, value) in live {
        while open.last().is_some_and(|outer| !key.starts_with(outer)) {
            open.pop();
            out += &format!("</{}>\n", elements[open.len()].0);
        }
        let depth = (1..=5).find(|&depth| names(depth) == key.len()).unwrap();
        let name = |place: usize| text(&key[place]);
        match depth {
            1 => out += &format!("<SubjectData SubjectKey=\"{}\">\n", name(0)),
            5 if value.is_empty() => out += &format!("<ItemData ItemOID=\"{}\" IsNull=\"Yes\"/>\n", name(7)),
            5 => {
                let value = text(value).replace('&', "&amp;").replace('<', "&lt;").replace('>', "&gt;").replace('"', "&quot;");
                out += &format!("<ItemData ItemOID=\"{}\" Value=\"{value}\"/>\n", name(7));
            }
            _ => {
                let (element, start) = elements[depth - 1];
                out += &format!("<{element} {start}OID=\"{}\"", name(2 * depth - 3));
                if !key[2 * depth - 2].is_empty() {
                    out += &format!(" {start}RepeatKey=\"{}\"", name(2 * depth - 2));
                }
                out += ">\n";
            }
        }
        if depth < 5 {
            open.push(key);
        }
    }
    while open.pop().is_some() {
        out += &format!("</{}>\n", elements[open.len()].0);
    }
    (out + "</ClinicalData>\n</ODM>\n").into_bytes()
}

/// One tag as it is written, values decoded.
struct Tag {
    name: String,
    closing: bool,
    self_closing: bool,
    attributes: Vec<(String, Vec<u8>)>,
}

fn trim(text: &[u8]) -> &[u8] {
    let space = text.iter().take_while(|byte| b" \t\r\n".contains(byte)).count();
    &text[space..]
}

/// Splits a name off.
fn lex_name(text: &[u8]) -> Option<(String, &[u8])> {
    let len = text.iter().take_while(|byte| byte.is_ascii_alphanumeric() || **byte == b':').count();
    let name = String::from_utf8(text[..len].to_vec()).unwrap();
    name.starts_with(|sign: char| sign.is_ascii_alphabetic()).then(|| (name, &text[len..]))
}

/// Splits a quoted value off and decodes it.
fn lex_value(text: &[u8]) -> Option<(Vec<u8>, &[u8])> {
    let quote = *text.first().filter(|byte| b"\"'".contains(byte))?;
    let len = text[1..].iter().position(|&byte| byte == quote)?;
    let (raw, rest) = (&text[1..1 + len], &text[2 + len..]);
    let printable = |byte: &u8| *byte != b'<' && (32..=126).contains(byte);
    raw.iter().all(printable).then_some(())?;
    Some((slow::decoded(raw)?, rest))
}

fn lex_tag(text: &[u8]) -> Option<(Tag, &[u8])> {
    let text = text.strip_prefix(b"<")?;
    let closing = text.starts_with(b"/");
    let (name, mut rest) = lex_name(if closing { &text[1..] } else { text })?;
    let mut tag = Tag { name, closing, self_closing: false, attributes: Vec::new() };
    loop {
        let trimmed = trim(rest);
        if let Some(after) = trimmed.strip_prefix(b">") {
            break Some((tag, after));
        }
        if closing {
            break None;
        }
        if let Some(after) = trimmed.strip_prefix(b"/>") {
            tag.self_closing = true;
            break Some((tag, after));
        }
        if trimmed.len() == rest.len() {
            break None;
        }
        let (name, after) = lex_name(trimmed)?;
        let (value, after) = lex_value(trim(trim(after).strip_prefix(b"=")?))?;
        tag.attributes.push((name, value));
        rest = after;
    }
}

const LADDER: [(&str, &[&str], &[&str]); 7] = [
    ("ODM", &["xmlns", "FileType", "FileOID", "CreationDateTime", "ODMVersion"], &["PriorFileOID", "AsOfDateTime", "Description"]),
    ("ClinicalData", &["StudyOID", "MetaDataVersionOID"], &[]),
    ("SubjectData", &["SubjectKey"], &["TransactionType"]),
    ("StudyEventData", &["StudyEventOID"], &["StudyEventRepeatKey", "TransactionType"]),
    ("FormData", &["FormOID"], &["FormRepeatKey", "TransactionType"]),
    ("ItemGroupData", &["ItemGroupOID"], &["ItemGroupRepeatKey", "TransactionType"]),
    ("ItemData", &["ItemOID"], &["Value", "IsNull", "TransactionType"]),
];

fn is_typed(name: &str) -> bool {
    TYPES.contains(&name)
}

/// A file read slowly: what the store holds after it, or the refusal.
struct SlowReader {
    after: Read,
    live: Live,
    snapshot: bool,
    /// The open entities: key and word.
    open: Vec<(Key, String)>,
    /// FileOID and kept date.
    kept: (Vec<u8>, Vec<u8>),
    /// Whether the items so far are typed.
    typed: Option<bool>,
}

impl SlowReader {
    fn file(mut self, file: &[u8]) -> Result<Read, u32> {
        if file.len() > 262_144 {
            return Err(3);
        }
        let declaration = b"<?xml version=\"1.0\" encoding=\"UTF-8\"?>";
        let mut rest = trim(file.strip_prefix(declaration).unwrap_or(file));
        let mut level = 0;
        let mut closed = false;
        while !rest.is_empty() {
            if closed {
                return Err(4);
            }
            let (tag, mut after) = lex_tag(rest).ok_or(4u32)?;
            level = self.tag(&tag, level)?;
            if level == 7 && is_typed(&tag.name) {
                after = self.body(&tag.name, after)?;
                level = 6;
            }
            rest = trim(after);
            closed = level == 0;
        }
        if !closed {
            return Err(4);
        }
        let (changes, used) = (self.after.changes.len() as u32, self.used() as u32);
        self.after.files.push((self.kept.0, self.kept.1, changes, used));
        Ok(self.after)
    }

    fn used(&self) -> usize {
        self.after.changes.iter().map(size).sum()
    }

    /// The rest of an open typed item: its body and the tag behind it, both judged here, then what it asks for.
    fn body<'f>(&mut self, element: &str, text: &'f [u8]) -> Result<&'f [u8], u32> {
        let (value, rest) = slow::body(text).ok_or(4u32)?;
        let (tag, rest) = lex_tag(rest).ok_or(4u32)?;
        names_of(&tag)?;
        if !tag.closing {
            return Err(5);
        }
        if tag.name != element {
            return Err(4);
        }
        if !fits(element, &value) {
            return Err(7);
        }
        self.act(5, Some(value))?;
        self.close(6)?;
        Ok(rest)
    }

    fn tag(&mut self, tag: &Tag, level: usize) -> Result<usize, u32> {
        let names = names_of(tag)?;
        if tag.closing {
            if level == 0 || LADDER[level - 1].0 != tag.name {
                return Err(4);
            }
            self.close(level - 1)?;
            return Ok(level - 1);
        }
        let typed = is_typed(&tag.name);
        if level == 7 || LADDER[level].0 != tag.name && !(level == 6 && typed) {
            return Err(5);
        }
        let (_, required, optional) = if typed { (tag.name.as_str(), &["ItemOID"][..], &["TransactionType"][..]) } else { LADDER[level] };
        let known = |name: &str| required.contains(&name) || optional.contains(&name);
        if !names.iter().all(|name| known(name)) || !required.iter().all(|name| names.contains(&name.to_string())) {
            return Err(6);
        }
        if level == 6 && *self.typed.get_or_insert(typed) != typed {
            return Err(16);
        }
        let get = |name: &str| tag.attributes.iter().find(|(other, _)| other == name).map(|(_, value)| value.clone());
        match level {
            0 => self.odm(get)?,
            1 => self.clinical(get)?,
            _ => {
                let value = self.entity(get, level - 1)?;
                match (typed, tag.self_closing) {
                    (false, _) => self.act(level - 1, value)?,
                    (true, true) => self.act(5, Some(Vec::new()))?,
                    // Its closing tag is waited for.
                    (true, false) => {}
                }
            }
        }
        if tag.self_closing {
            self.close(level)?;
            return Ok(level);
        }
        Ok(level + 1)
    }

    fn odm(&mut self, get: impl Fn(&str) -> Option<Vec<u8>>) -> Result<(), u32> {
        let must = |name: &str| get(name).unwrap();
        let (oid, creation, prior) = (must("FileOID"), must("CreationDateTime"), get("PriorFileOID"));
        let kept = get("AsOfDateTime").unwrap_or(creation.clone());
        let kind = must("FileType");
        let good = must("xmlns") == b"http://www.cdisc.org/ns/odm/v1.3"
            && must("ODMVersion") == b"1.3.2"
            && (kind == b"Snapshot" || kind == b"Transactional")
            && is_name(&oid, 64)
            && prior.as_ref().is_none_or(|prior| is_name(prior, 64))
            && is_date(&creation)
            && is_date(&kept)
            && get("Description").is_none_or(|text| text.len() <= 64);
        if !good {
            return Err(7);
        }
        self.snapshot = kind == b"Snapshot";
        let files = &self.after.files;
        let in_series = match files.last() {
            None => prior.is_none(),
            Some(last) => prior.as_ref() == Some(&last.0) && last.1 <= kept && !self.snapshot,
        };
        if !in_series || kept > creation || files.iter().any(|file| file.0 == oid) {
            return Err(9);
        }
        if files.len() == 64 {
            return Err(13);
        }
        self.kept = (oid, kept);
        Ok(())
    }

    fn clinical(&self, get: impl Fn(&str) -> Option<Vec<u8>>) -> Result<(), u32> {
        let (study, version) = (get("StudyOID").unwrap(), get("MetaDataVersionOID").unwrap());
        if !is_name(&study, 64) || !is_name(&version, 64) {
            return Err(7);
        }
        if study != self.after.study || version != self.after.version {
            return Err(8);
        }
        Ok(())
    }

    /// Judges an entity's tag by itself and opens it; gives the value that Value and IsNull give.
    fn entity(&mut self, get: impl Fn(&str) -> Option<Vec<u8>>, depth: usize) -> Result<Option<Vec<u8>>, u32> {
        let (_, required, optional) = LADDER[depth + 1];
        let mut key = self.open.last().map_or(Key::new(), |(key, _)| key.clone());
        let oid = get(required[0]).unwrap();
        let mut good = is_name(&oid, 16);
        key.push(oid);
        if (2..5).contains(&depth) {
            let repeat = get(optional[0]);
            good &= repeat.as_ref().is_none_or(|repeat| is_name(repeat, 16));
            key.push(repeat.unwrap_or_default());
        }
        let given = get("TransactionType").map(|word| String::from_utf8(word).unwrap());
        let words = ["Insert", "Update", "Upsert", "Remove", "Context"];
        good &= given.as_ref().is_none_or(|word| words.contains(&word.as_str()));
        let (value, null) = (get("Value"), get("IsNull"));
        good &= value.as_ref().is_none_or(|value| value.len() <= 40);
        good &= null.as_ref().is_none_or(|null| null == b"Yes" && value.is_none());
        if !good {
            return Err(7);
        }
        let word = self.word(given)?;
        self.open.push((key, word));
        Ok(value.or(null.map(|_| Vec::new())))
    }

    /// Does what the innermost open entity asks for; of a Remove the end waits until it is closed.
    fn act(&mut self, depth: usize, value: Option<Vec<u8>>) -> Result<(), u32> {
        let (key, word) = self.open.last().cloned().unwrap();
        let live = self.live.contains_key(&key);
        let kind = match (word.as_str(), live) {
            ("Insert", true) => return Err(11),
            ("Update" | "Remove" | "Context", false) => return Err(12),
            ("Insert" | "Upsert", false) => Some(1),
            ("Update" | "Upsert", true) if value.is_some() => Some(2),
            _ => None,
        };
        match kind {
            Some(kind) => self.add(Change { kind, depth, key, value: value.unwrap_or_default() }),
            None => Ok(()),
        }
    }

    fn word(&self, given: Option<String>) -> Result<String, u32> {
        let above = self.open.last().map(|(_, word)| word.clone());
        let word = match (given, &above) {
            (Some(word), _) => word,
            (None, _) if self.snapshot => "Insert".into(),
            (None, Some(word)) => word.clone(),
            (None, None) => return Err(10),
        };
        let under_remove = above.is_some_and(|above| above == "Remove");
        if (self.snapshot && word != "Insert") || (under_remove && word != "Remove") {
            return Err(10);
        }
        Ok(word)
    }

    fn close(&mut self, level: usize) -> Result<(), u32> {
        if level < 2 {
            return Ok(());
        }
        let (key, word) = self.open.pop().unwrap();
        match word == "Remove" {
            true => self.add(Change { kind: 3, depth: level - 1, key, value: Vec::new() }),
            false => Ok(()),
        }
    }

    fn add(&mut self, change: Change) -> Result<(), u32> {
        if self.after.changes.len() == 2_048 || self.used() + size(&change) > 49_152 {
            return Err(13);
        }
        take(&mut self.live, &change).ok_or(13u32)?;
        self.after.changes.push(change);
        Ok(())
    }
}

/// The names of a tag's attributes, each there once.
fn names_of(tag: &Tag) -> Result<BTreeSet<&String>, u32> {
    let names: BTreeSet<&String> = tag.attributes.iter().map(|(name, _)| name).collect();
    match names.len() == tag.attributes.len() {
        true => Ok(names),
        false => Err(4),
    }
}

fn size(change: &Change) -> usize {
    change.key.iter().map(|name| name.len() + 1).sum::<usize>() + change.value.len()
}

/// What an import has to answer and leave.
fn slow_import(read: &Read, live: &Live, file: &[u8]) -> Result<Read, u32> {
    let (after, live) = (read.clone(), live.clone());
    SlowReader { after, live, snapshot: false, open: Vec::new(), kept: Default::default(), typed: None }.file(file)
}

/// How often each call gave each refusal.
type Seen = BTreeMap<(String, u32), usize>;

/// Runs a call file line by line and compares each call with the slow reading.
fn compare(text: &str, seen: &mut Seen) {
    let mut runner = Runner::default();
    for line in text.lines() {
        let call = line.split(' ').next().unwrap();
        let is_call = ["open", "import", "reimport", "withdraw", "snapshot"].contains(&call);
        let right_lengths = runner.numbers.len() == NUMBERS_LEN && runner.bytes.len() == BYTES_LEN;
        let judged = if is_call && right_lengths { judge(&runner.numbers, &runner.bytes) } else { None };
        let before = (runner.numbers.clone(), runner.bytes.clone());
        let mut printed = Vec::new();
        runner.line(line, &mut printed).unwrap();
        if !is_call {
            continue;
        }
        let printed = String::from_utf8(printed).unwrap();
        let words: Vec<&str> = printed.split(' ').collect();
        let refusal: u32 = words[1].parse().unwrap();
        *seen.entry((words[0].into(), refusal)).or_default() += 1;
        assert_eq!(refusal == 1, !right_lengths);
        if call != "open" && right_lengths {
            assert_eq!(refusal == 2, judged.is_none(), "{line}");
        }
        if refusal != 0 {
            assert_eq!(words[2], "0");
            assert!(before == (runner.numbers.clone(), runner.bytes.clone()));
        }
        if let ("import", Some((read, live))) = (call, &judged) {
            let file = unhex(line.split(' ').nth(1).unwrap()).unwrap();
            match slow_import(read, live, &file) {
                Err(number) => assert_eq!(refusal, number, "{}", String::from_utf8_lossy(&file)),
                Ok(after) => {
                    assert_eq!(refusal, 0, "{}", String::from_utf8_lossy(&file));
                    assert_eq!(words[2].parse(), Ok(after.changes.len() - read.changes.len()));
                    assert!((runner.numbers.clone(), runner.bytes.clone()) == written(&after));
                }
            }
        }
        if let ("snapshot", Some((read, live))) = (call, &judged) {
            let mut output = vec![0; SNAPSHOT_LEN];
            let answer = snapshot(&runner.numbers, &runner.bytes, b"S1", b"2014-03-02T09:00:00", &mut output);
            output.truncate(answer.count as usize);
            assert!(output == snapshot_text(read, live));
        }
        if refusal == 0 {
            assert!(judge(&runner.numbers, &runner.bytes).is_some(), "{line}");
        }
    }
}

/// The refusals of each call.
fn assert_every_refusal(seen: &Seen, times: usize) {
    let import: Vec<u32> = (0..=13).chain([16]).collect();
    let calls: [(&str, &[u32]); 4] =
        [("import", &import), ("open", &[0, 1, 7]), ("snapshot", &[0, 1, 2, 7, 14]), ("withdraw", &[0, 1, 2, 15])];
    let all = calls.iter().flat_map(|(call, refusals)| refusals.iter().map(move |&refusal| (call.to_string(), refusal)));
    assert_eq!(seen.keys().cloned().collect::<Vec<_>>(), all.collect::<Vec<_>>());
    assert!(seen.values().all(|&count| count >= times), "{seen:?}");
}

#[test]
fn calls_agree_with_a_slow_reading_and_meet_every_refusal() {
    let mut seen = Seen::new();
    // Another stretch of seeds is tried with SEED=100, say.
    let first = std::env::var("SEED").ok().and_then(|word| word.parse().ok()).unwrap_or(1);
    for seed in first..first + 4 {
        compare(&call_file(seed, 1_500), &mut seen);
    }
    assert_every_refusal(&seen, 1);
}

/// The seed of the stored calls, as README.md has it.
const STORED_SEED: u64 = 1;

#[test]
fn stored_calls_agree_with_a_slow_reading_and_meet_every_refusal_ten_times() {
    let mut seen = Seen::new();
    for (name, text) in stored(STORED_SEED) {
        // What the trial program has room for.
        assert!(text.len() < 400_000, "{name}");
        compare(&text, &mut seen);
    }
    assert_every_refusal(&seen, 10);
}

#[test]
fn stored_calls_reach_every_limit_and_pass_none() {
    // Files, changes, change bytes, live entities, bytes of a file: of all files, and of those that end with a typed item's change.
    let (mut most, mut most_typed) = ([0; 5], [0; 5]);
    // The same places: whether a file with typed items was refused there.
    let mut passed = [false; 5];
    for (_, text) in stored(STORED_SEED).into_iter().filter(|(name, _)| ["limits", "typed"].contains(name)) {
        let mut runner = Runner::default();
        for line in text.lines() {
            let mut printed = Vec::new();
            runner.line(line, &mut printed).unwrap();
            let answer = [&b"import 0 "[..], b"import 3 ", b"import 13 "].into_iter().position(|start| printed.starts_with(start));
            let Some(answer) = answer else { continue };
            let (read, live) = judge(&runner.numbers, &runner.bytes).unwrap();
            let file = line.split(' ').nth(1).map_or(Vec::new(), |file| unhex(file).unwrap());
            let typed = TYPES.iter().any(|element| file.windows(element.len()).any(|part| part == element.as_bytes()));
            let now = [read.files.len(), read.changes.len(), runner.numbers[2] as usize, live.len(), file.len()];
            match answer {
                0 => {
                    most = std::array::from_fn(|place| most[place].max(now[place]));
                    if typed && read.changes.last().is_some_and(|change| change.depth == 5) {
                        most_typed = std::array::from_fn(|place| most_typed[place].max(now[place]));
                    }
                }
                1 => passed[4] |= typed,
                // A full store refuses with what is full; one of bytes may have some left.
                _ if now[0] == 64 => {}
                _ if now[1] == 2_048 => passed[1] |= typed,
                _ if now[3] == 512 => passed[3] |= typed,
                _ => passed[2] |= typed,
            }
        }
    }
    assert_eq!(most, [64, 2_048, 49_152, 512, FILE_LEN]);
    assert_eq!(most_typed[1..], most[1..]);
    assert_eq!(passed[1..], [true; 4]);
}

/// Written anew by the command in README.md.
#[test]
fn stored_calls_and_answers_are_those_of_the_trial_program() {
    let folder = Path::new(env!("CARGO_MANIFEST_DIR")).join("../crates/trial");
    let read = |name: &str| std::fs::read_to_string(folder.join(name)).unwrap();
    let files = stored(STORED_SEED);
    let names: String = files.iter().map(|(name, _)| format!("{name}\n")).collect();
    assert_eq!(read("args"), names);
    let mut printed = Vec::new();
    for (name, text) in files {
        assert!(read(&format!("data/{name}")) == text, "{name}");
        store::calls::run(&text, &mut printed).unwrap();
    }
    assert!(read("stdout").as_bytes() == printed);
}

#[test]
fn a_seed_always_gives_the_same_file() {
    assert_eq!(call_file(5, 100), call_file(5, 100));
    assert_ne!(call_file(5, 100), call_file(6, 100));
}
