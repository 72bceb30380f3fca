//! The chains of calls.

use super::document::{self, name_of, value, ELEMENTS};
use super::model::{Key, Model};
use super::mutate::mutate;
use super::random::Random;
use super::typed::TYPES;
use crate::calls::{hex, Runner};
use crate::image::{BYTES_LEN, CHANGE_BYTES, NUMBERS_LEN};
use crate::{snapshot, FILE_LEN, SNAPSHOT_LEN};

/// Save slots: one for damage, one for reading a snapshot back, one just before a limit.
const BEFORE_DAMAGE: usize = 0;
const BEFORE_READING_BACK: usize = 1;
const BEFORE_LIMIT: usize = 2;

/// Texts that are no long names.
pub(super) const BAD_NAMES: [&[u8]; 5] = [b"", b"S T", &[b'x'; 65], b"S\0", b"\xC3\xA9"];

const FILE_ROWS: usize = 5;
const CHANGE_ROWS: usize = 197;

pub struct Writer {
    pub(super) random: Random,
    runner: Runner,
    pub(super) model: Model,
    text: String,
    calls: usize,
    /// No file of many bytes, unless one is asked for.
    small: bool,
}

impl Writer {
    pub fn new(random: Random, small: bool) -> Writer {
        Writer { random, runner: Runner::default(), model: Model::default(), text: String::new(), calls: 0, small }
    }

    pub fn calls(&self) -> usize {
        self.calls
    }

    pub fn into_text(self) -> String {
        self.text
    }

    /// One chain on a newly opened store.
    pub fn chain(&mut self) {
        if self.random.chance(15) {
            // On whatever stands: at first on zeros, which are no image.
            self.some_call();
        }
        self.open();
        match self.random.below(40) {
            _ if self.small => {}
            0 => self.many_files(),
            1 => self.many_live(),
            2 => self.many_changes(),
            3 => self.many_bytes(),
            4 => self.long_files(),
            _ => {}
        }
        for _ in 0..10 + self.random.below(40) {
            self.step();
        }
    }

    fn step(&mut self) {
        match self.random.below(100) {
            0..=54 => self.import(),
            55..=66 => self.withdraw(),
            67..=79 => self.snapshot(),
            80..=94 => self.damage(),
            95 | 96 => self.other_lengths(),
            97 => self.bad_open(),
            _ => self.read_back(),
        }
    }

    /// Writes a line and runs it; gives the refusal number of a call.
    pub(super) fn emit(&mut self, line: String) -> u32 {
        let mut printed = Vec::new();
        self.runner.line(&line, &mut printed).expect("a line of the generator's own");
        self.text += &line;
        self.text.push('\n');
        let printed = String::from_utf8_lossy(&printed);
        let refusal = printed.split(' ').nth(1).and_then(|word| word.parse().ok());
        self.calls += usize::from(refusal.is_some());
        refusal.unwrap_or(0)
    }

    /// A call that may change the image, whose model is read anew.
    pub(super) fn emit_change(&mut self, line: String) -> u32 {
        let refusal = self.emit(line);
        if refusal == 0 {
            self.model = Model::of(&self.runner.numbers, &self.runner.bytes);
        }
        refusal
    }

    pub(super) fn open(&mut self) {
        if self.random.chance(10) {
            self.bad_open();
        }
        let (study, version) = match self.random.chance(70) {
            true => (b"ST".to_vec(), b"V1".to_vec()),
            false => {
                let (study, version) = (*self.random.pick(&[1, 5, 64]), *self.random.pick(&[1, 16, 63, 64]));
                (name_of(&mut self.random, study), name_of(&mut self.random, version))
            }
        };
        self.emit_change(format!("open {} {}", hex(&study), hex(&version)));
    }

    fn bad_open(&mut self) {
        let bad = hex(*self.random.pick(&BAD_NAMES));
        let line = match self.random.chance(50) {
            true => format!("open {bad} 5631"),
            false => format!("open 5354 {bad}"),
        };
        self.emit(line);
    }

    /// A file that is meant to be taken, with a percentage of wrong steps.
    fn good_file(&mut self, wrong: usize) -> Vec<u8> {
        let width = if self.small { 1 } else { 1 + self.random.below(4) };
        document::file(&mut self.random, &self.model, wrong, width)
    }

    fn file(&mut self) -> Vec<u8> {
        let wrong = if self.random.chance(12) { 15 } else { 0 };
        let file = self.good_file(wrong);
        if self.random.chance(72) {
            return file;
        }
        let mut broken = mutate(&mut self.random, &self.model, &file);
        if self.random.chance(20) && broken.len() > 1 {
            broken = mutate(&mut self.random, &self.model, &broken);
        }
        broken
    }

    pub(super) fn import(&mut self) {
        let file = self.file();
        self.import_file(&file);
    }

    pub(super) fn import_file(&mut self, file: &[u8]) -> u32 {
        self.emit_change(format!("import {}", hex(file)))
    }

    pub(super) fn withdraw_line(&mut self) -> String {
        let last = self.model.files.last().map_or(Vec::new(), |(oid, _)| oid.clone());
        let oid = match self.random.below(12) {
            0 => Vec::new(),
            1 => [&last[..], b"0"].concat(),
            2 => last[..last.len().saturating_sub(1)].to_vec(),
            3 if !self.model.files.is_empty() => self.random.pick(&self.model.files).0.clone(),
            4 => [&last[..], b"\0"].concat(),
            _ => last,
        };
        format!("withdraw {}", hex(&oid))
    }

    pub(super) fn withdraw(&mut self) {
        let line = self.withdraw_line();
        self.emit_change(line);
    }

    /// Withdraws the file that stands last.
    pub(super) fn withdraw_last(&mut self) {
        let last = self.model.files.last().map_or(Vec::new(), |(oid, _)| oid.clone());
        self.emit_change(format!("withdraw {}", hex(&last)));
    }

    /// How long a snapshot with a FileOID of `oid_len` bytes would be.
    fn snapshot_len(&self, oid_len: usize) -> usize {
        let mut output = vec![0; SNAPSHOT_LEN];
        let oid = vec![b'S'; oid_len];
        let Runner { numbers, bytes, .. } = &self.runner;
        snapshot(numbers, bytes, &oid, b"2014-03-02T09:00:00", &mut output).count as usize
    }

    pub(super) fn snapshot_line(&mut self) -> String {
        let oid_len = *self.random.pick(&[1, 2, 8, 64]);
        let mut oid = name_of(&mut self.random, oid_len);
        let last = self.model.files.last().map(|(_, date)| date.clone());
        let mut date = document::later(&mut self.random, last.as_deref());
        let exact = self.snapshot_len(oid_len);
        let len = match self.random.below(10) {
            0 => exact.saturating_sub(1),
            1 => self.random.below(exact + 1),
            2 => 0,
            3 | 4 => exact,
            5 | 6 => exact + 1 + self.random.below(50),
            _ => SNAPSHOT_LEN,
        };
        match self.random.below(20) {
            0 => oid = vec![b'S'; 65],
            1 => oid = b"S 1".to_vec(),
            2 => date = b"2014-02-29T09:00:00".to_vec(),
            3 => date.truncate(18),
            _ => {}
        }
        format!("snapshot {} {} {len}", hex(&oid), hex(&date))
    }

    pub(super) fn snapshot(&mut self) {
        let line = self.snapshot_line();
        let accepted = self.emit(line) == 0;
        if accepted && self.random.chance(35) {
            self.read_back();
        }
    }

    /// Reads the last snapshot into an empty store, seldom into another study or the store itself.
    pub(super) fn read_back(&mut self) {
        if self.random.chance(10) {
            self.emit_change("reimport".into());
            return;
        }
        self.emit(format!("save {BEFORE_READING_BACK}"));
        let study = if self.random.chance(10) { b"OTHER".to_vec() } else { self.model.study.clone() };
        let open = format!("open {} {}", hex(&study), hex(&self.model.version));
        self.emit_change(open);
        self.emit_change("reimport".into());
        let line = self.snapshot_line();
        self.emit(line);
        self.withdraw();
        self.load(BEFORE_READING_BACK);
    }

    /// Goes back to what was saved.
    pub(super) fn load(&mut self, slot: usize) {
        self.emit(format!("load {slot}"));
        self.model = Model::of(&self.runner.numbers, &self.runner.bytes);
    }

    fn some_call(&mut self) {
        let line = match self.random.below(10) {
            0..=4 => format!("import {}", hex(&self.good_file(0))),
            5 => format!("import {}", hex(&self.file())),
            6 | 7 => self.withdraw_line(),
            _ => self.snapshot_line(),
        };
        self.emit(line);
    }

    fn other_lengths(&mut self) {
        self.emit(format!("save {BEFORE_DAMAGE}"));
        if self.random.chance(50) {
            let len = *self.random.pick(&[0, 1, NUMBERS_LEN - 1, NUMBERS_LEN + 1]);
            self.emit(format!("numbers {len}"));
        } else {
            let len = *self.random.pick(&[0, 1, BYTES_LEN - 1, BYTES_LEN + 1]);
            self.emit(format!("bytes {len}"));
        }
        match self.random.chance(25) {
            true => self.bad_open(),
            false => self.some_call(),
        }
        self.emit(format!("load {BEFORE_DAMAGE}"));
    }

    /// Damages a copy of the image, calls, and goes back.
    pub(super) fn damage(&mut self) {
        self.emit(format!("save {BEFORE_DAMAGE}"));
        match self.random.below(10) {
            0..=3 => self.poke_numbers(),
            4..=6 => self.poke_bytes(),
            7 => self.copy_file_slot(),
            8 => self.drop_last_change(),
            _ => self.append_change(),
        }
        self.some_call();
        if self.random.chance(30) {
            self.some_call();
        }
        self.emit(format!("load {BEFORE_DAMAGE}"));
    }

    fn poke_number(&mut self, at: usize, value: u32) {
        self.emit(format!("pokeN {at} {value}"));
    }

    fn poke_byte(&mut self, at: usize, value: u8) {
        self.emit(format!("pokeB {at} {value}"));
    }

    fn poke_numbers(&mut self) {
        for _ in 0..1 + self.random.below(2) {
            let row = self.random.below(3);
            let at = match self.random.below(8) {
                0 | 1 => self.random.below(5),
                2 | 3 => FILE_ROWS + 3 * self.random.below(self.model.files.len() + 1).min(63) + row,
                4..=6 => CHANGE_ROWS + 3 * self.random.below(self.model.changes + 1).min(2_047) + row,
                _ => self.random.below(NUMBERS_LEN),
            };
            let old = self.runner.numbers[at];
            let value = match self.random.below(9) {
                0 | 1 => old.wrapping_add(1),
                2 | 3 => old.wrapping_sub(1),
                4 => self.random.below(7) as u32,
                5 => *self.random.pick(&[16, 17, 64, 65, 512, 2_048, 2_049, 49_152, 49_153]),
                6 => self.random.next() as u32,
                7 => u32::MAX,
                _ => old | 1 << 31,
            };
            self.poke_number(at, value);
        }
    }

    fn poke_bytes(&mut self) {
        for _ in 0..1 + self.random.below(2) {
            let slot = 128 + 83 * self.random.below(self.model.files.len() + 1).min(63);
            let at = match self.random.below(12) {
                0 => self.random.below(128),
                1 => slot + self.random.below(64),
                2 => slot + 64 + self.random.below(19),
                3 => (CHANGE_BYTES + self.model.used).min(BYTES_LEN - 1),
                4 => self.random.below(BYTES_LEN),
                _ => CHANGE_BYTES + self.random.below(self.model.used.max(1)),
            };
            let old = self.runner.bytes[at];
            let value = match self.random.below(7) {
                0 => old.wrapping_add(1),
                1 => old.wrapping_sub(1),
                2 => 0,
                3 => *self.random.pick(b" <&\"~\x7f\x1f\x80\xff\n"),
                4 => self.random.below(18) as u8,
                _ => *self.random.pick(b"AZaz09._-/"),
            };
            self.poke_byte(at, value);
        }
    }

    /// One file's OID or date over another's: doubled OIDs, falling dates.
    fn copy_file_slot(&mut self) {
        let files = self.model.files.len();
        if files < 2 {
            return self.poke_bytes();
        }
        let (from, to) = (self.random.below(files), self.random.below(files));
        let (start, len) = if self.random.chance(50) { (0, 64) } else { (64, 19) };
        let slot = |file: usize| 128 + 83 * file + start;
        for step in 0..len {
            let (value, old) = (self.runner.bytes[slot(from) + step], self.runner.bytes[slot(to) + step]);
            if value != old {
                self.poke_byte(slot(to) + step, value);
            }
        }
        if start == 0 {
            let value = self.runner.numbers[FILE_ROWS + 3 * from];
            self.poke_number(FILE_ROWS + 3 * to, value);
        }
    }

    /// Another valid image: the last change is gone from its file.
    fn drop_last_change(&mut self) {
        let (files, changes) = (self.model.files.len(), self.model.changes);
        let through = |file: usize| FILE_ROWS + 3 * file + 1;
        let last = files.wrapping_sub(1);
        if changes == 0 || (files > 1 && self.runner.numbers[through(last - 1)] as usize == changes) {
            return self.poke_numbers();
        }
        let row = CHANGE_ROWS + 3 * (changes - 1);
        let start = if changes == 1 { 0 } else { self.runner.numbers[row - 1] };
        for at in start as usize..self.model.used {
            self.poke_byte(CHANGE_BYTES + at, 0);
        }
        (row..row + 3).for_each(|at| self.poke_number(at, 0));
        self.put_counts(last, changes as u32 - 1, start);
    }

    /// A change added by hand at the end: allowed in turn or not.
    fn append_change(&mut self) {
        let (files, changes) = (self.model.files.len(), self.model.changes);
        if files == 0 || changes == 2_048 {
            return self.poke_numbers();
        }
        let kind = 1 + self.random.below(3) as u32;
        let (depth, mut bytes) = self.some_change_bytes();
        if depth == 5 && kind != 3 {
            let len = *self.random.pick(&[0, 1, 40, 41]);
            bytes.extend(value(&mut self.random, len));
        }
        let end = self.model.used + bytes.len();
        if end > 49_152 {
            return self.poke_numbers();
        }
        for (step, byte) in bytes.into_iter().enumerate() {
            self.poke_byte(CHANGE_BYTES + self.model.used + step, byte);
        }
        let row = CHANGE_ROWS + 3 * changes;
        for (step, number) in [kind, depth, end as u32].into_iter().enumerate() {
            self.poke_number(row + step, number);
        }
        self.put_counts(files - 1, changes as u32 + 1, end as u32);
    }

    /// A depth and the names of a key, live, or new under a live parent, or under none.
    fn some_change_bytes(&mut self) -> (u32, Vec<u8>) {
        let live: Vec<Key> = self.model.live.iter().cloned().collect();
        let mut key = match live.is_empty() {
            true => vec![b"1".to_vec()],
            false => self.random.pick(&live).clone(),
        };
        if self.random.chance(50) {
            let at = self.random.below(key.len());
            key[at] = document::name(&mut self.random);
        }
        let depth = super::model::depth_of(&key) as u32;
        let bytes = key.iter().flat_map(|name| [&[name.len() as u8][..], name].concat()).collect();
        (depth, bytes)
    }

    fn put_counts(&mut self, file: usize, changes: u32, used: u32) {
        let row = FILE_ROWS + 3 * file;
        self.poke_number(row + 1, changes);
        self.poke_number(row + 2, used);
        self.poke_number(1, changes);
        self.poke_number(2, used);
    }

    /// A file of the series with a body of the generator's making.
    pub(super) fn framed(&mut self, body: &str) -> Vec<u8> {
        let oid = document::new_oid(&mut self.random, &self.model);
        let last = self.model.files.last().cloned();
        let date = document::later(&mut self.random, last.as_ref().map(|(_, date)| &date[..]));
        let prior = last.map_or(String::new(), |(oid, _)| format!(" PriorFileOID=\"{}\"", String::from_utf8_lossy(&oid)));
        format!(
            "<ODM xmlns=\"http://www.cdisc.org/ns/odm/v1.3\" FileType=\"Transactional\" FileOID=\"{}\"{prior} \
             CreationDateTime=\"{}\" ODMVersion=\"1.3.2\"><ClinicalData StudyOID=\"{}\" MetaDataVersionOID=\"{}\">{body}\
             </ClinicalData></ODM>",
            String::from_utf8_lossy(&oid),
            String::from_utf8_lossy(&date),
            String::from_utf8_lossy(&self.model.study),
            String::from_utf8_lossy(&self.model.version),
        )
        .into_bytes()
    }

    pub(super) fn import_body(&mut self, body: &str) -> u32 {
        let file = self.framed(body);
        self.import_file(&file)
    }

    /// Up to 64 files and one more.
    pub(super) fn many_files(&mut self) {
        for turn in 0..70 {
            let body = match turn % 4 {
                0 => String::new(),
                _ => subject(&format!("many{turn}"), "Upsert"),
            };
            self.import_body(&body);
        }
        self.import();
    }

    /// Up to 512 live entities, one more, and one in another's place.
    pub(super) fn many_live(&mut self) {
        let count = 505 + self.random.below(8);
        let body: String = (0..count).map(|n| subject(&format!("S{n}"), "Insert")).collect();
        self.import_body(&body);
        self.emit(format!("save {BEFORE_LIMIT}"));
        for turn in 0..10 {
            self.import_body(&subject(&format!("more{turn}"), "Insert"));
            self.damage();
        }
        self.import_body(&(subject("S0", "Remove") + &subject("new", "Insert")));
        self.snapshot();
        self.load(BEFORE_LIMIT);
        self.typed_live();
    }

    /// The same with typed items: two of them and what is around them take the last six places.
    fn typed_live(&mut self) {
        let gone = (self.model.live.len() + 6).saturating_sub(512);
        let removed: String = (0..gone).map(|n| subject(&format!("S{n}"), "Remove")).collect();
        let items = "<ItemDataString ItemOID='A'>a</ItemDataString><ItemDataDate ItemOID='B'/>";
        self.import_body(&(removed + &around("Insert", items)));
        for new in ["<ItemDataFloat ItemOID='C'>1.5</ItemDataFloat>", "<ItemDataFloat ItemOID='C'/>", "<ItemDataInteger ItemOID='C'>x</ItemDataInteger>"] {
            self.import_body(&around("Context", &new.replace(" ItemOID", " TransactionType='Insert' ItemOID")));
        }
        let swapped = "<ItemDataString ItemOID='A' TransactionType='Remove'/><ItemDataString ItemOID='C' TransactionType='Insert'>c</ItemDataString>";
        self.import_body(&around("Context", swapped));
        self.snapshot();
    }

    /// Up to 2,048 changes, by makes and ends, and one more of each kind.
    pub(super) fn many_changes(&mut self) {
        let items: String = (0..500).map(|n| format!("<ItemData ItemOID='{n}'/>")).collect();
        let round = ["Insert", "Remove"].map(|word| {
            format!(
                "<SubjectData SubjectKey='S' TransactionType='{word}'><StudyEventData StudyEventOID='E'><FormData FormOID='F'>\
                 <ItemGroupData ItemGroupOID='G'>{items}</ItemGroupData></FormData></StudyEventData></SubjectData>"
            )
        });
        let pairs = 12 + self.random.below(2);
        let body = round.concat().repeat(2) + &(subject("S", "Insert") + &subject("S", "Remove")).repeat(pairs);
        self.import_body(&body);
        self.emit(format!("save {BEFORE_LIMIT}"));
        for turn in 0..8 {
            self.import_body(&subject(&format!("T{turn}"), "Insert"));
        }
        self.import_body("<SubjectData SubjectKey='T0' TransactionType='Remove'></SubjectData>");
        self.import_body("<SubjectData SubjectKey='T0' TransactionType='Remove'><FormData FormOID='F'/></SubjectData>");
        self.damage();
        self.snapshot();
        self.load(BEFORE_LIMIT);
        self.typed_changes();
    }

    /// The same with typed items: the last changes are theirs, and one more of each kind is tried.
    fn typed_changes(&mut self) {
        let left = 2_048usize.saturating_sub(self.model.changes + 4);
        let item = |word: &str, rest: &str| around("Context", &format!("<ItemDataInteger ItemOID='A' TransactionType='{word}'{rest}"));
        self.import_body(&around("Insert", &(0..left).map(|n| format!("<ItemDataInteger ItemOID='{n}'>{n}</ItemDataInteger>")).collect::<String>()));
        for rest in [">1</ItemDataInteger>", "/>", ">x</ItemDataInteger>"] {
            self.import_body(&item("Insert", rest));
            for word in ["Update", "Remove", "Context", "Upsert"] {
                self.import_body(&item(word, rest).replace("'A'", "'0'"));
            }
        }
        self.snapshot();
    }

    /// Up to 49,152 change bytes with the longest keys and values.
    pub(super) fn many_bytes(&mut self) {
        let long = |n: usize| format!("{n:0>16}");
        let count = 275 + self.random.below(3);
        let items: String =
            (0..count).map(|n| format!("<ItemData ItemOID='{}' Value='{}'/>", long(n), "\"".repeat(40))).collect();
        let body = ELEMENTS[..4].iter().rev().fold(items, |inside, (element, oid, repeat)| {
            let repeat = if repeat.is_empty() { String::new() } else { format!(" {repeat}='{}'", long(1)) };
            let word = if *element == "SubjectData" { " TransactionType='Insert'" } else { "" };
            format!("<{element} {oid}='{}'{repeat}{word}>{inside}</{element}>", long(1))
        });
        self.import_body(&body);
        self.emit(format!("save {BEFORE_LIMIT}"));
        for turn in 0..12 {
            let len = 1 + self.random.below(16);
            let key = format!("{turn:0>len$}");
            self.import_body(&subject(&key, "Upsert"));
            self.import_body(&subject(&long(turn), "Upsert"));
        }
        self.last_bytes();
        self.damage();
        self.snapshot();
        self.read_back();
        self.load(BEFORE_LIMIT);
        self.typed_bytes();
    }

    /// The same with typed items: some whose values take exactly the bytes that are left, before that one byte more.
    fn typed_bytes(&mut self) {
        // The seven names around an item, with their lengths, and an item's name of one byte.
        const KEY: usize = 7 * 17 + 2;
        let left = 49_152 - self.model.used;
        let count = (left / (KEY + 20)).max(1);
        let Some(values) = left.checked_sub(count * KEY).filter(|values| *values < count * 40) else { return };
        for more in [1, 0] {
            let mut values = values + more;
            let items: String = (0..count)
                .map(|n| {
                    let len = values.div_ceil(count - n);
                    values -= len;
                    format!("<ItemDataString ItemOID='{n}' TransactionType='Upsert'>{}</ItemDataString>", "]".repeat(len))
                })
                .collect();
            let body = ELEMENTS[..4].iter().rev().fold(items, |inside, (element, oid, repeat)| {
                let repeat = if repeat.is_empty() { String::new() } else { format!(" {repeat}='{:0>16}'", 1) };
                let word = if *element == "SubjectData" { " TransactionType='Context'" } else { "" };
                format!("<{element} {oid}='{:0>16}'{repeat}{word}>{inside}</{element}>", 1)
            });
            self.import_body(&body);
        }
        self.import_body(&around("Upsert", "<ItemDataString ItemOID='A'/>"));
        self.snapshot();
    }

    /// Subjects whose changes take exactly the bytes that are left, and one more.
    fn last_bytes(&mut self) {
        const MOST: usize = 49_152;
        let mut left = MOST - self.model.used;
        if left > 1_000 {
            return;
        }
        let mut body = String::new();
        while left > 1 {
            // A length byte and a name; one byte alone would be left over for good.
            let len = if left == 18 { 15 } else { 16.min(left - 1) };
            body += &subject(&format!("{left:z>len$}")[..len], "Insert");
            left -= len + 1;
        }
        self.import_body(&body);
        self.import_body(&subject("over", "Insert"));
    }

    /// Files about as long as a file may be.
    fn long_files(&mut self) {
        for len in [FILE_LEN + 1 + self.random.below(2), FILE_LEN - self.random.below(2)] {
            let mut file = self.framed(&subject("long", "Upsert"));
            file.resize(len, *self.random.pick(b" \n\t\r"));
            self.import_file(&file);
        }
        let (start, filling): (&str, &str) = *self.random.pick(&[
            ("<ODM xmlns=\"", "a"),
            ("<ODM xmlns=\"", "&quot;"),
            ("<ODM a='1'", " \n"),
            ("<", "a"),
            ("", " "),
            ("<ODM", " a=''"),
            ("<ODM Description='", "&apos;&amp;"),
        ]);
        let mut file = start.as_bytes().to_vec();
        while file.len() + filling.len() <= FILE_LEN {
            file.extend(filling.bytes());
        }
        self.import_file(&file);
        let names: String = (0..20_000).map(|n| format!(" a{n:x}=''")).collect();
        let twin = if self.random.chance(50) { " a1=''" } else { "" };
        self.import_file(format!("<ODM{names}{twin}/>").as_bytes());
        self.long_bodies();
    }

    /// Files of the same length with one typed item, whose body ends or does not.
    fn long_bodies(&mut self) {
        const FILLINGS: [(&str, &str); 9] = [
            ("", "1"), ("", "&amp;"), ("", "]]"), ("", ">"), ("", "]>"), ("<![CDATA[", "]]"), ("<![CDATA[", ">"), ("<![CDATA[", "&<"), ("<![CDATA[", "]>"),
        ];
        let (start, filling) = *self.random.pick(&FILLINGS);
        let element = *self.random.pick(&TYPES);
        let end = match (self.random.chance(60), start.is_empty()) {
            (true, true) => format!("</{element}>"),
            (true, false) => format!("]]></{element}>"),
            _ => "".into(),
        };
        let text = self.framed(&around("Upsert", &format!("<{element} ItemOID='L'>{start}|{end}")));
        let bar = text.iter().position(|&byte| byte == b'|').expect("one was written");
        let times = (FILE_LEN - (text.len() - 1)) / filling.len();
        let mut file = [&text[..bar], filling.repeat(times).as_bytes(), &text[bar + 1..]].concat();
        file.resize(FILE_LEN, b'\n');
        self.import_file(&file);
    }
}

/// The four elements around items, the outermost with a word.
pub(super) fn around(word: &str, items: &str) -> String {
    format!(
        "<SubjectData SubjectKey='U' TransactionType='{word}'><StudyEventData StudyEventOID='E'><FormData FormOID='F'>\
         <ItemGroupData ItemGroupOID='G'>{items}</ItemGroupData></FormData></StudyEventData></SubjectData>"
    )
}

pub(super) fn subject(key: &str, word: &str) -> String {
    format!("<SubjectData SubjectKey=\"{key}\" TransactionType=\"{word}\"/>")
}
