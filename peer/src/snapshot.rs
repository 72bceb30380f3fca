//! The snapshot writer.

use crate::image::{self, ITEM};
use crate::live::{Live, Node, ROOT};
use crate::names::{is_date, is_long_name};
use crate::refusal;
use crate::scan::DECLARATION;

pub fn snapshot(
    numbers: &[u32],
    bytes: &[u8],
    file_oid: &[u8],
    date: &[u8],
    output: &mut [u8],
) -> Result<usize, u32> {
    let (_, live) = image::judge(numbers, bytes)?;
    if !is_long_name(file_oid) || !is_date(date) {
        return Err(refusal::VALUE);
    }
    let frame = Frame {
        file_oid,
        date,
        study: image::study(numbers, bytes),
        version: image::version(numbers, bytes),
    };
    let levels = live.levels();
    // The same writer runs twice, first counting only, so that a refusal leaves the output alone.
    let mut length = Length(0);
    Writer { live: &live, bytes, levels: &levels, next: [0; ITEM], sink: &mut length }.file(&frame);
    let target = output.get_mut(..length.0).ok_or(refusal::OUTPUT)?;
    let mut sink = Target { rest: target };
    Writer { live: &live, bytes, levels: &levels, next: [0; ITEM], sink: &mut sink }.file(&frame);
    Ok(length.0)
}

struct Frame<'a> {
    file_oid: &'a [u8],
    date: &'a [u8],
    study: &'a [u8],
    version: &'a [u8],
}

trait Sink {
    fn put(&mut self, text: &[u8]);
}

struct Length(usize);

impl Sink for Length {
    fn put(&mut self, text: &[u8]) {
        self.0 += text.len();
    }
}

struct Target<'o> {
    rest: &'o mut [u8],
}

impl Sink for Target<'_> {
    fn put(&mut self, text: &[u8]) {
        let (here, rest) = std::mem::take(&mut self.rest).split_at_mut(text.len());
        here.copy_from_slice(text);
        self.rest = rest;
    }
}

/// Opening text, text before a repeat key, closing tag, for each depth.
const TEXTS: [(&[u8], &[u8], &[u8]); ITEM] = [
    (b"<SubjectData SubjectKey=\"", b"", b"</SubjectData>\n"),
    (b"<StudyEventData StudyEventOID=\"", b" StudyEventRepeatKey=\"", b"</StudyEventData>\n"),
    (b"<FormData FormOID=\"", b" FormRepeatKey=\"", b"</FormData>\n"),
    (b"<ItemGroupData ItemGroupOID=\"", b" ItemGroupRepeatKey=\"", b"</ItemGroupData>\n"),
    (b"<ItemData ItemOID=\"", b"", b""),
];

struct Writer<'a, S> {
    live: &'a Live,
    bytes: &'a [u8],
    levels: &'a [Vec<u16>; ITEM],
    /// The next entity of each depth.
    next: [usize; ITEM],
    sink: &'a mut S,
}

impl<S: Sink> Writer<'_, S> {
    fn file(&mut self, frame: &Frame) {
        self.sink.put(DECLARATION);
        self.sink.put(b"\n<ODM xmlns=\"http://www.cdisc.org/ns/odm/v1.3\" FileType=\"Snapshot\" FileOID=\"");
        self.sink.put(frame.file_oid);
        self.sink.put(b"\" CreationDateTime=\"");
        self.sink.put(frame.date);
        self.sink.put(b"\" ODMVersion=\"1.3.2\">\n<ClinicalData StudyOID=\"");
        self.sink.put(frame.study);
        self.sink.put(b"\" MetaDataVersionOID=\"");
        self.sink.put(frame.version);
        self.sink.put(b"\">\n");
        self.children(0, ROOT);
        self.sink.put(b"</ClinicalData>\n</ODM>\n");
    }

    /// The children of one parent follow each other in their level.
    fn children(&mut self, level: usize, parent: u16) {
        let (live, levels) = (self.live, self.levels);
        while let Some(&id) = levels[level].get(self.next[level]) {
            let node = live.node(id);
            if node.parent != parent {
                return;
            }
            self.next[level] += 1;
            self.names(level, node);
            if level + 1 == ITEM {
                self.value(node);
            } else {
                self.sink.put(b">\n");
                self.children(level + 1, id);
                self.sink.put(TEXTS[level].2);
            }
        }
    }

    fn names(&mut self, level: usize, node: &Node) {
        let (text, len) = node.step.oid_text();
        self.sink.put(TEXTS[level].0);
        self.sink.put(&text[..len]);
        self.sink.put(b"\"");
        if node.step.repeat != 0 {
            let (text, len) = node.step.repeat_text();
            self.sink.put(TEXTS[level].1);
            self.sink.put(&text[..len]);
            self.sink.put(b"\"");
        }
    }

    fn value(&mut self, node: &Node) {
        let at = node.value_at as usize;
        let value = &self.bytes[at..at + node.value_len as usize];
        if value.is_empty() {
            self.sink.put(b" IsNull=\"Yes\"/>\n");
            return;
        }
        self.sink.put(b" Value=\"");
        self.escaped(value);
        self.sink.put(b"\"/>\n");
    }

    fn escaped(&mut self, value: &[u8]) {
        let mut from = 0;
        for (at, &byte) in value.iter().enumerate() {
            let written: &[u8] = match byte {
                b'&' => b"&amp;",
                b'<' => b"&lt;",
                b'>' => b"&gt;",
                b'"' => b"&quot;",
                _ => continue,
            };
            self.sink.put(&value[from..at]);
            self.sink.put(written);
            from = at + 1;
        }
        self.sink.put(&value[from..]);
    }
}
