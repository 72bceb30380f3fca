//! Tags of a file: one pass, no copies. A value is handed on as the stretch that holds it.

use crate::names::{is_space, mark, packed_name, NAME_LEN};
use crate::refusal::FORM;

pub const DECLARATION: &[u8] = b"<?xml version=\"1.0\" encoding=\"UTF-8\"?>";

/// What opens a CDATA section; `]]>` ends it.
const CDATA: &[u8] = b"<![CDATA[";

/// The attributes of the element table, as bit numbers.
pub mod attribute {
    pub const XMLNS: usize = 0;
    pub const FILE_TYPE: usize = 1;
    pub const FILE_OID: usize = 2;
    pub const CREATION: usize = 3;
    pub const ODM_VERSION: usize = 4;
    pub const PRIOR_OID: usize = 5;
    pub const AS_OF: usize = 6;
    pub const DESCRIPTION: usize = 7;
    pub const STUDY_OID: usize = 8;
    pub const VERSION_OID: usize = 9;
    pub const SUBJECT_KEY: usize = 10;
    pub const EVENT_OID: usize = 11;
    pub const EVENT_REPEAT: usize = 12;
    pub const FORM_OID: usize = 13;
    pub const FORM_REPEAT: usize = 14;
    pub const GROUP_OID: usize = 15;
    pub const GROUP_REPEAT: usize = 16;
    pub const ITEM_OID: usize = 17;
    pub const VALUE: usize = 18;
    pub const IS_NULL: usize = 19;
    pub const WORD: usize = 20;
    pub const COUNT: usize = 21;

    /// The attribute whose name opens `rest`, with the length of the name.
    pub fn known(rest: &[u8]) -> Option<(usize, usize)> {
        let is = super::Opens(rest);
        match rest.first()? {
            b'I' => is
                .named(b"ItemOID", ITEM_OID)
                .or_else(|| is.named(b"ItemGroupOID", GROUP_OID))
                .or_else(|| is.named(b"ItemGroupRepeatKey", GROUP_REPEAT))
                .or_else(|| is.named(b"IsNull", IS_NULL)),
            b'V' => is.named(b"Value", VALUE),
            b'T' => is.named(b"TransactionType", WORD),
            b'F' => is
                .named(b"FormOID", FORM_OID)
                .or_else(|| is.named(b"FormRepeatKey", FORM_REPEAT))
                .or_else(|| is.named(b"FileOID", FILE_OID))
                .or_else(|| is.named(b"FileType", FILE_TYPE)),
            b'S' => is
                .named(b"StudyEventOID", EVENT_OID)
                .or_else(|| is.named(b"StudyEventRepeatKey", EVENT_REPEAT))
                .or_else(|| is.named(b"SubjectKey", SUBJECT_KEY))
                .or_else(|| is.named(b"StudyOID", STUDY_OID)),
            b'M' => is.named(b"MetaDataVersionOID", VERSION_OID),
            b'x' => is.named(b"xmlns", XMLNS),
            b'C' => is.named(b"CreationDateTime", CREATION),
            b'O' => is.named(b"ODMVersion", ODM_VERSION),
            b'P' => is.named(b"PriorFileOID", PRIOR_OID),
            b'A' => is.named(b"AsOfDateTime", AS_OF),
            b'D' => is.named(b"Description", DESCRIPTION),
            _ => None,
        }
    }
}

/// The elements, numbered from the outermost; the typed items stand last, where untyped ones stand.
pub mod element {
    pub const ITEM: usize = 6;
    pub const STRING: usize = 7;
    pub const INTEGER: usize = 8;
    pub const FLOAT: usize = 9;
    pub const DATE: usize = 10;
    pub const DATETIME: usize = 11;
    pub const COUNT: usize = 12;

    /// How many elements stand around this one.
    pub fn level(element: usize) -> usize {
        element.min(ITEM)
    }

    /// The element whose name opens `rest`, with the length of the name.
    pub fn known(rest: &[u8]) -> Option<(usize, usize)> {
        let is = super::Opens(rest);
        match rest.first()? {
            // The ninth byte tells the long names apart; `ItemData` ends before it.
            b'I' => match rest.get(8) {
                Some(b'p') => is.named(b"ItemGroupData", 5),
                Some(b'S') => is.named(b"ItemDataString", STRING),
                Some(b'I') => is.named(b"ItemDataInteger", INTEGER),
                Some(b'F') => is.named(b"ItemDataFloat", FLOAT),
                Some(b'D') => is.named(b"ItemDataDate", DATE).or_else(|| is.named(b"ItemDataDatetime", DATETIME)),
                _ => is.named(b"ItemData", ITEM),
            },
            b'F' => is.named(b"FormData", 4),
            b'S' => is.named(b"StudyEventData", 3).or_else(|| is.named(b"SubjectData", 2)),
            b'C' => is.named(b"ClinicalData", 1),
            b'O' => is.named(b"ODM", 0),
            _ => None,
        }
    }
}

/// Compares the start of a text with known names: their lengths are constants, so a known name is
/// read without looking for its end.
struct Opens<'f>(&'f [u8]);

impl Opens<'_> {
    #[inline(always)]
    fn named<const LEN: usize>(&self, name: &[u8; LEN], number: usize) -> Option<(usize, usize)> {
        let (start, rest) = self.0.split_first_chunk::<LEN>()?;
        let goes_on = rest.first().is_some_and(|&byte| IN_NAME[byte as usize]);
        (start == name && !goes_on).then_some((number, LEN))
    }
}

#[derive(Clone, Copy, PartialEq, Eq, Debug)]
pub enum Shape {
    Opening,
    SelfClosing,
    Closing,
}

/// One tag in its written form; nothing is known yet of its element or values.
pub struct Tag<'f> {
    pub shape: Shape,
    /// Its element, if it is a known one.
    pub element: Option<usize>,
    /// Attributes of the element table that stand here, as bits.
    pub seen: u32,
    /// Those whose stretch holds an entity.
    pub escaped: u32,
    /// An attribute outside the element table stands here.
    pub stranger: bool,
    file: &'f [u8],
    /// Where each value starts and ends.
    values: [(usize, usize); attribute::COUNT],
}

impl<'f> Tag<'f> {
    fn new(file: &'f [u8]) -> Tag<'f> {
        Tag {
            shape: Shape::Opening,
            element: None,
            seen: 0,
            escaped: 0,
            stranger: false,
            file,
            values: [(0, 0); attribute::COUNT],
        }
    }

    /// The stretch between an attribute's quotes.
    pub fn value(&self, attribute: usize) -> Option<&'f [u8]> {
        self.place(attribute).map(|(start, end)| &self.file[start..end])
    }

    /// The same as a packed name: 0 if the attribute is absent, `None` if it is no name. An entity
    /// never stands for a name byte, so the stretch is judged as it is.
    pub fn name_of(&self, attribute: usize) -> Option<u128> {
        match self.place(attribute) {
            None => Some(0),
            Some((start, end)) if (1..=NAME_LEN).contains(&(end - start)) => {
                packed_name(self.file, start, end - start)
            }
            Some(_) => None,
        }
    }

    fn place(&self, attribute: usize) -> Option<(usize, usize)> {
        (self.seen >> attribute & 1 == 1).then(|| self.values[attribute])
    }
}

/// What a typed item says: the stretch that holds it, between its tags or in its CDATA section.
pub struct Body<'f> {
    stretch: &'f [u8],
    /// The stretch holds an entity. In CDATA a `&` stands for itself.
    escaped: bool,
}

impl<'f> Body<'f> {
    /// The decoded bytes; `None` if they are more than `decoded` has room for. Only a stretch with entities is copied.
    pub fn text<'v>(&self, decoded: &'v mut [u8]) -> Option<&'v [u8]>
    where
        'f: 'v,
    {
        if self.escaped {
            let len = decode(self.stretch, decoded)?;
            return Some(&decoded[..len]);
        }
        (self.stretch.len() <= decoded.len()).then_some(self.stretch)
    }
}

pub struct Scanner<'f> {
    file: &'f [u8],
    at: usize,
    pub tag: Tag<'f>,
    /// Names outside the element table. The tag that has one is refused, so this fills once.
    strangers: Vec<&'f [u8]>,
}

impl<'f> Scanner<'f> {
    pub fn new(file: &'f [u8]) -> Scanner<'f> {
        let at = if file.starts_with(DECLARATION) { DECLARATION.len() } else { 0 };
        Scanner { file, at, tag: Tag::new(file), strangers: Vec::new() }
    }

    /// Steps over white space and one tag; false at the end of the file.
    pub fn step(&mut self) -> Result<bool, u32> {
        self.at = skip_space(self.file, self.at);
        if self.at == self.file.len() {
            return Ok(false);
        }
        self.step_over_tag()?;
        Ok(true)
    }

    /// Steps over the body of a typed item and the tag behind it. No white space is skipped: in a body it is text.
    pub fn step_over_body(&mut self) -> Result<Body<'f>, u32> {
        let body = match self.file[self.at..].starts_with(CDATA) {
            true => self.cdata()?,
            false => self.text()?,
        };
        // Whatever else stands beside a section begins no tag.
        self.step_over_tag()?;
        Ok(body)
    }

    #[inline(always)]
    fn step_over_tag(&mut self) -> Result<(), u32> {
        self.expect(b'<')?;
        self.tag.seen = 0;
        self.tag.escaped = 0;
        self.tag.stranger = false;
        if self.peek() == Some(b'/') {
            self.at += 1;
            return self.closing();
        }
        self.opening()
    }

    /// Text up to the next `<`.
    fn text(&mut self) -> Result<Body<'f>, u32> {
        let start = self.at;
        let mut at = start;
        let mut escaped = false;
        loop {
            at = skip_text(self.file, at);
            match self.file.get(at) {
                Some(b'<') => break,
                Some(b'&') => {
                    at += entity(&self.file[at..]).ok_or(FORM)?.1;
                    escaped = true;
                }
                _ => return Err(FORM),
            }
        }
        self.at = at;
        Ok(Body { stretch: &self.file[start..at], escaped })
    }

    /// A CDATA section up to the first `]]>`.
    fn cdata(&mut self) -> Result<Body<'f>, u32> {
        let start = self.at + CDATA.len();
        self.at = skip_section(self.file, start);
        let stretch = &self.file[start..self.at];
        self.expect(b'>')?;
        Ok(Body { stretch: &stretch[..stretch.len() - 2], escaped: false })
    }

    /// Only white space is left.
    pub fn is_done(&self) -> bool {
        skip_space(self.file, self.at) == self.file.len()
    }

    fn peek(&self) -> Option<u8> {
        self.file.get(self.at).copied()
    }

    fn expect(&mut self, byte: u8) -> Result<(), u32> {
        if self.peek() != Some(byte) {
            return Err(FORM);
        }
        self.at += 1;
        Ok(())
    }

    fn closing(&mut self) -> Result<(), u32> {
        self.tag.shape = Shape::Closing;
        self.tag.element = self.element()?;
        self.at = skip_space(self.file, self.at);
        self.expect(b'>')
    }

    fn opening(&mut self) -> Result<(), u32> {
        self.tag.element = self.element()?;
        loop {
            let before = self.at;
            self.at = skip_space(self.file, before);
            match self.peek() {
                Some(b'>') => {
                    self.at += 1;
                    self.tag.shape = Shape::Opening;
                    break;
                }
                Some(b'/') => {
                    self.at += 1;
                    self.expect(b'>')?;
                    self.tag.shape = Shape::SelfClosing;
                    break;
                }
                _ if self.at > before => self.attribute()?,
                _ => return Err(FORM),
            }
        }
        if self.tag.stranger && has_twins(&mut self.strangers) {
            return Err(FORM);
        }
        Ok(())
    }

    fn attribute(&mut self) -> Result<(), u32> {
        let start = self.at;
        let known = attribute::known(&self.file[start..]);
        self.name(known)?;
        let name_end = self.at;
        self.at = skip_space(self.file, self.at);
        self.expect(b'=')?;
        self.at = skip_space(self.file, self.at);
        let (value, escaped) = self.quoted()?;
        match known {
            Some((number, _)) => {
                let bit = 1 << number;
                if self.tag.seen & bit != 0 {
                    return Err(FORM);
                }
                self.tag.seen |= bit;
                self.tag.escaped |= (escaped as u32) << number;
                self.tag.values[number] = value;
            }
            None => {
                self.tag.stranger = true;
                self.strangers.push(&self.file[start..name_end]);
            }
        }
        Ok(())
    }

    fn element(&mut self) -> Result<Option<usize>, u32> {
        let known = element::known(&self.file[self.at..]);
        self.name(known)?;
        Ok(known.map(|(number, _)| number))
    }

    /// Steps over a name: a letter, then letters, digits and colons.
    fn name(&mut self, known: Option<(usize, usize)>) -> Result<(), u32> {
        if let Some((_, len)) = known {
            self.at += len;
            return Ok(());
        }
        let rest = &self.file[self.at..];
        if !rest.first().is_some_and(u8::is_ascii_alphabetic) {
            return Err(FORM);
        }
        let ends = |&byte: &u8| !IN_NAME[byte as usize];
        self.at += rest.iter().position(ends).unwrap_or(rest.len());
        Ok(())
    }

    /// Where a quoted value starts and ends, and whether it holds an entity.
    fn quoted(&mut self) -> Result<((usize, usize), bool), u32> {
        let quote = match self.peek() {
            Some(quote @ (b'"' | b'\'')) => quote,
            _ => return Err(FORM),
        };
        let start = self.at + 1;
        let mut at = start;
        let mut escaped = false;
        loop {
            at = skip_plain(self.file, at, quote);
            match self.file.get(at) {
                Some(&byte) if byte == quote => break,
                Some(b'&') => {
                    at += entity(&self.file[at..]).ok_or(FORM)?.1;
                    escaped = true;
                }
                _ => return Err(FORM),
            }
        }
        self.at = at + 1;
        Ok(((start, at), escaped))
    }
}

/// The byte an entity stands for, and its written length.
pub fn entity(text: &[u8]) -> Option<(u8, usize)> {
    const ENTITIES: [(&[u8], u8); 5] = [
        (b"&lt;", b'<'),
        (b"&gt;", b'>'),
        (b"&amp;", b'&'),
        (b"&quot;", b'"'),
        (b"&apos;", b'\''),
    ];
    let found = ENTITIES.iter().find(|(written, _)| text.starts_with(written))?;
    Some((found.1, found.0.len()))
}

/// Decodes a stretch into `target`; `None` if it does not fit. The stretch was read by a scanner.
pub fn decode(stretch: &[u8], target: &mut [u8]) -> Option<usize> {
    let mut at = 0;
    let mut len = 0;
    while at < stretch.len() {
        let (byte, step) = match stretch[at] {
            b'&' => entity(&stretch[at..])?,
            byte => (byte, 1),
        };
        *target.get_mut(len)? = byte;
        len += 1;
        at += step;
    }
    Some(len)
}

/// Equal marks are looked for first: numbers sort fast, and without equal ones all names differ.
fn has_twins(names: &mut [&[u8]]) -> bool {
    let mut marks: Vec<u64> = names.iter().map(|name| mark(name)).collect();
    marks.sort_unstable();
    if marks.windows(2).all(|pair| pair[0] != pair[1]) {
        return false;
    }
    names.sort_unstable();
    names.windows(2).any(|pair| pair[0] == pair[1])
}

/// Letters, digits and colons.
static IN_NAME: [bool; 256] = {
    let mut table = [false; 256];
    let mut byte = 0;
    while byte < 128 {
        table[byte as usize] = (byte as u8).is_ascii_alphanumeric() || byte == b':';
        byte += 1;
    }
    table
};

/// What may stand for itself in a value, whichever quote it has.
static PLAIN: [bool; 256] = {
    let mut table = [false; 256];
    let mut byte = 32;
    while byte < 127 {
        table[byte as usize] = !matches!(byte, b'<' | b'&' | b'"' | b'\'');
        byte += 1;
    }
    table
};

/// Bytes looked at one by one before a run counts as long.
const SHORT: usize = 16;

/// Bytes looked at together in a long run.
const BLOCK: usize = 32;

#[inline]
fn skip_space(file: &[u8], at: usize) -> usize {
    if !file.get(at).is_some_and(|&byte| is_space(byte)) {
        return at;
    }
    skip_more_space(file, at + 1)
}

fn skip_more_space(file: &[u8], at: usize) -> usize {
    let near = file.len().min(at + SHORT);
    if let Some(step) = file[at..near].iter().position(|&byte| !is_space(byte)) {
        return at + step;
    }
    skip_far(file, near, |byte| {
        (byte == b' ') | (byte == b'\n') | (byte == b'\r') | (byte == b'\t')
    })
}

/// Skips what stands for itself in a value.
fn skip_plain(file: &[u8], at: usize, quote: u8) -> usize {
    let plain = |byte: u8| {
        printable(byte) & (byte != b'<') & (byte != b'&') & (byte != quote)
    };
    let near = file.len().min(at + SHORT);
    let stops = |&byte: &u8| !PLAIN[byte as usize] && !plain(byte);
    if let Some(step) = file[at..near].iter().position(stops) {
        return at + step;
    }
    skip_far(file, near, plain)
}

/// Skips what stands for itself in a body, up to the `>` of a `]]>` at most.
fn skip_text(file: &[u8], at: usize) -> usize {
    skip_body(file, at, |byte| printable(byte) & (byte != b'<') & (byte != b'&'))
}

/// Skips what may stand in a CDATA section, up to the `>` of the first `]]>` at most.
fn skip_section(file: &[u8], at: usize) -> usize {
    skip_body(file, at, printable)
}

/// What stands before a body ends in no `]`, so to look two bytes back is always right.
#[inline(always)]
fn skip_body(file: &[u8], mut at: usize, passes: impl Fn(u8) -> bool) -> usize {
    let goes_on = |at: usize| {
        let byte = file[at];
        passes(byte) && (byte != b'>' || !file[..at].ends_with(b"]]"))
    };
    let mut near = file.len().min(at + SHORT);
    loop {
        while at < near {
            if !goes_on(at) {
                return at;
            }
            at += 1;
        }
        while let Some(block) = at.checked_sub(2).and_then(|back| file[back..].first_chunk::<{ BLOCK + 2 }>()) {
            let ends = |place: usize| (block[place] == b']') & (block[place + 1] == b']') & (block[place + 2] == b'>');
            if !(0..BLOCK).fold(true, |all, place| all & passes(block[place + 2]) & !ends(place)) {
                break;
            }
            at += BLOCK;
        }
        // The stop is in the next block, or the file ends there.
        if at == file.len() {
            return at;
        }
        near = file.len().min(at + BLOCK);
    }
}

fn printable(byte: u8) -> bool {
    byte.wrapping_sub(32) < 95
}

/// The first byte from `at` that does not pass: whole blocks while they pass, then single bytes.
fn skip_far(file: &[u8], at: usize, passes: impl Fn(u8) -> bool) -> usize {
    let mut at = at;
    while let Some(block) = file[at..].first_chunk::<BLOCK>() {
        if !block.iter().fold(true, |all, &byte| all & passes(byte)) {
            break;
        }
        at += BLOCK;
    }
    let rest = &file[at..];
    at + rest.iter().position(|&byte| !passes(byte)).unwrap_or(rest.len())
}

#[cfg(test)]
mod tests {
    use super::*;

    #[test]
    fn runs_stop_where_a_slow_reader_stops() {
        for len in [0, 1, 15, 16, 17, 47, 48, 49, 80, 81, 200] {
            for stop in [b'<', b'&', b'"', 31, 127, 255] {
                let mut file = vec![b'x'; len];
                assert_eq!(skip_plain(&file, 0, b'"'), len);
                file.push(stop);
                file.extend([b'y'; 40]);
                assert_eq!(skip_plain(&file, 0, b'"'), len);
                let mut file = vec![b'\t'; len];
                assert_eq!(skip_space(&file, 0), len);
                file.push(stop);
                file.extend([b' '; 40]);
                assert_eq!(skip_space(&file, 0), len);
            }
        }
    }

    #[test]
    fn values_stop_at_every_other_byte() {
        for byte in 0..=255u8 {
            for at in [0, 5, 15, 16, 20, 39] {
                let mut file = [b'a'; 40];
                file[at] = byte;
                let plain = (32..127).contains(&byte) && !b"<&'".contains(&byte);
                assert_eq!(skip_plain(&file, 0, b'\''), if plain { 40 } else { at });
            }
        }
    }

    #[test]
    fn known_names_end_where_they_end() {
        assert_eq!(attribute::known(b"ItemOID=\"\""), Some((attribute::ITEM_OID, 7)));
        assert_eq!(attribute::known(b"StudyEventRepeatKey ="), Some((attribute::EVENT_REPEAT, 19)));
        assert_eq!(attribute::known(b"Value"), Some((attribute::VALUE, 5)));
        for strange in [&b"Values="[..], b"Value:a", b"Valu", b"value", b"", b"ItemOIDItemOID", b"StudyEvent"] {
            assert_eq!(attribute::known(strange), None);
        }
        assert_eq!(element::known(b"ODM>"), Some((0, 3)));
        assert_eq!(element::known(b"ItemGroupData/>"), Some((5, 13)));
        assert_eq!(element::known(b"ItemDataX"), None);
        assert_eq!(element::known(b"ItemData"), Some((element::ITEM, 8)));
        assert_eq!(element::known(b"ItemDataDate>"), Some((element::DATE, 12)));
        assert_eq!(element::known(b"ItemDataDatetime"), Some((element::DATETIME, 16)));
        for strange in [&b"ItemDataDateTime"[..], b"ItemDataDat", b"ItemDataStringX", b"ItemDatastring", b"ItemDataBoolean", b"ItemDat", b"I"] {
            assert_eq!(element::known(strange), None);
        }
    }

    #[test]
    fn bodies_stop_at_every_other_byte() {
        for byte in 0..=255u8 {
            for at in [0, 5, 15, 16, 20, 39, 47, 48, 70] {
                let mut file = [b']'; 80];
                file[at] = byte;
                let section = (32..127).contains(&byte) && (byte != b'>' || at < 2);
                let text = section && !b"<&".contains(&byte);
                assert_eq!(skip_text(&file, 0), if text { 80 } else { at });
                assert_eq!(skip_section(&file, 0), if section { 80 } else { at });
            }
        }
    }

    #[test]
    fn sections_end_at_their_first_end() {
        for len in 0..120 {
            for filling in [&b">"[..], b"]>", b"]", b"a]] >", b"] ]>>"] {
                let mut file: Vec<u8> = filling.iter().copied().cycle().take(len).collect();
                let first = |file: &[u8]| file.windows(3).position(|part| part == b"]]>").map_or(file.len(), |at| at + 2);
                assert_eq!(skip_section(&file, 0), first(&file));
                file.extend(b"]]>]]>");
                assert_eq!(skip_section(&file, 0), first(&file));
                assert_eq!(skip_text(&file, 0), first(&file));
            }
        }
    }

    #[test]
    fn decoding_counts_decoded_bytes() {
        let mut target = [0; 5];
        assert_eq!(decode(b"&lt;&gt;&amp;&quot;&apos;", &mut target), Some(5));
        assert_eq!(&target, b"<>&\"'");
        assert_eq!(decode(b"abcde&lt;", &mut target), None);
    }
}
