//! The store image: its layout, the judging of a whole image, Open and Withdraw.

use crate::live::{Live, Step, ROOT};
use crate::names::{
    all_value_bytes, is_date, is_long_name, mark, packed_name, DATE_LEN, LONG_NAME_LEN, NAME_LEN, VALUE_LEN,
};
use crate::refusal;

pub const NUMBERS_LEN: usize = CHANGE_ROWS + MOST_CHANGES * ROW;
pub const BYTES_LEN: usize = CHANGE_BYTES + MOST_BYTES;

pub const MOST_FILES: usize = 64;
pub const MOST_CHANGES: usize = 2_048;
pub const MOST_BYTES: usize = 49_152;
pub const MOST_LIVE: usize = 512;

const FILES: usize = 0;
const CHANGES: usize = 1;
const USED: usize = 2;
const STUDY_LEN: usize = 3;
const VERSION_LEN: usize = 4;
const ROW: usize = 3;
const FILE_ROWS: usize = 5;
const CHANGE_ROWS: usize = FILE_ROWS + MOST_FILES * ROW;

const VERSION: usize = LONG_NAME_LEN;
const SLOTS: usize = 2 * LONG_NAME_LEN;
const SLOT: usize = LONG_NAME_LEN + DATE_LEN;
/// Where the change bytes begin in the bytes buffer.
pub const CHANGE_BYTES: usize = SLOTS + MOST_FILES * SLOT;

pub const MAKE: u32 = 1;
pub const WRITE: u32 = 2;
pub const END: u32 = 3;
/// The depth of items.
pub const ITEM: usize = 5;

/// The three counts an image opens with.
#[derive(Clone, Copy)]
pub struct Counts {
    pub files: usize,
    pub changes: usize,
    pub used: usize,
}

pub fn study<'a>(numbers: &[u32], bytes: &'a [u8]) -> &'a [u8] {
    &bytes[..numbers[STUDY_LEN] as usize]
}

pub fn version<'a>(numbers: &[u32], bytes: &'a [u8]) -> &'a [u8] {
    &bytes[VERSION..VERSION + numbers[VERSION_LEN] as usize]
}

pub fn file_oid<'a>(numbers: &[u32], bytes: &'a [u8], file: usize) -> &'a [u8] {
    let at = SLOTS + file * SLOT;
    &bytes[at..at + numbers[FILE_ROWS + file * ROW] as usize]
}

pub fn file_date(bytes: &[u8], file: usize) -> &[u8] {
    let at = SLOTS + file * SLOT + LONG_NAME_LEN;
    &bytes[at..at + DATE_LEN]
}

/// Changes and bytes through the first `files` files.
fn through(numbers: &[u32], files: usize) -> (usize, usize) {
    match files {
        0 => (0, 0),
        some => {
            let row = FILE_ROWS + (some - 1) * ROW;
            (numbers[row + 1] as usize, numbers[row + 2] as usize)
        }
    }
}

/// The row of one change: kind, depth, end.
pub fn put_change(numbers: &mut [u32], change: usize, row: [u32; ROW]) {
    let at = CHANGE_ROWS + change * ROW;
    numbers[at..at + ROW].copy_from_slice(&row);
}

/// Clears the rows of changes `from..to` and the change bytes `low..high`.
pub fn clear_changes(
    numbers: &mut [u32],
    bytes: &mut [u8],
    rows: std::ops::Range<usize>,
    used: std::ops::Range<usize>,
) {
    numbers[CHANGE_ROWS + rows.start * ROW..CHANGE_ROWS + rows.end * ROW].fill(0);
    bytes[CHANGE_BYTES + used.start..CHANGE_BYTES + used.end].fill(0);
}

/// Adds the row of a file whose changes are already in place.
pub fn put_file(numbers: &mut [u32], bytes: &mut [u8], counts: Counts, oid: &[u8], date: &[u8]) {
    let row = FILE_ROWS + (counts.files - 1) * ROW;
    numbers[row..row + ROW].copy_from_slice(&[oid.len() as u32, counts.changes as u32, counts.used as u32]);
    let slot = SLOTS + (counts.files - 1) * SLOT;
    bytes[slot..slot + oid.len()].copy_from_slice(oid);
    bytes[slot + LONG_NAME_LEN..slot + SLOT].copy_from_slice(date);
    put_counts(numbers, counts);
}

fn put_counts(numbers: &mut [u32], counts: Counts) {
    numbers[FILES] = counts.files as u32;
    numbers[CHANGES] = counts.changes as u32;
    numbers[USED] = counts.used as u32;
}

fn check_lengths(numbers: &[u32], bytes: &[u8]) -> Result<(), u32> {
    match numbers.len() == NUMBERS_LEN && bytes.len() == BYTES_LEN {
        true => Ok(()),
        false => Err(refusal::LENGTH),
    }
}

pub fn open(numbers: &mut [u32], bytes: &mut [u8], study: &[u8], version: &[u8]) -> Result<(), u32> {
    check_lengths(numbers, bytes)?;
    if !is_long_name(study) || !is_long_name(version) {
        return Err(refusal::VALUE);
    }
    numbers.fill(0);
    bytes.fill(0);
    numbers[STUDY_LEN] = study.len() as u32;
    numbers[VERSION_LEN] = version.len() as u32;
    bytes[..study.len()].copy_from_slice(study);
    bytes[VERSION..VERSION + version.len()].copy_from_slice(version);
    Ok(())
}

pub fn withdraw(numbers: &mut [u32], bytes: &mut [u8], oid: &[u8]) -> Result<usize, u32> {
    let (counts, _) = judge(numbers, bytes)?;
    if counts.files == 0 || file_oid(numbers, bytes, counts.files - 1) != oid {
        return Err(refusal::NOT_LAST);
    }
    let last = counts.files - 1;
    let (changes, used) = through(numbers, last);
    clear_changes(numbers, bytes, changes..counts.changes, used..counts.used);
    numbers[FILE_ROWS + last * ROW..][..ROW].fill(0);
    bytes[SLOTS + last * SLOT..][..SLOT].fill(0);
    put_counts(numbers, Counts { files: last, changes, used });
    Ok(counts.changes - changes)
}

/// Judges the whole image; gives its counts and what is live at its end.
pub fn judge(numbers: &[u32], bytes: &[u8]) -> Result<(Counts, Live), u32> {
    check_lengths(numbers, bytes)?;
    let counts = judge_contents(numbers, bytes).ok_or(refusal::IMAGE)?;
    judge_files(numbers, bytes, counts).ok_or(refusal::IMAGE)?;
    let live = Judge::new(bytes).changes(numbers, counts).ok_or(refusal::IMAGE)?;
    Ok((counts, live))
}

/// `Some` if the condition holds, so that faults leave by `?`.
fn holds(condition: bool) -> Option<()> {
    condition.then_some(())
}

fn judge_contents(numbers: &[u32], bytes: &[u8]) -> Option<Counts> {
    let at_most = |at: usize, most: usize| Some(numbers[at] as usize).filter(|&count| count <= most);
    let files = at_most(FILES, MOST_FILES)?;
    let changes = at_most(CHANGES, MOST_CHANGES)?;
    let used = at_most(USED, MOST_BYTES)?;
    judge_long_name(numbers[STUDY_LEN], &bytes[..VERSION])?;
    judge_long_name(numbers[VERSION_LEN], &bytes[VERSION..SLOTS])?;
    holds(all_zero(&numbers[FILE_ROWS + files * ROW..CHANGE_ROWS], 0))?;
    holds(all_zero(&numbers[CHANGE_ROWS + changes * ROW..], 0))?;
    holds(all_zero(&bytes[SLOTS + files * SLOT..CHANGE_BYTES], 0))?;
    holds(all_zero(&bytes[CHANGE_BYTES + used..], 0))?;
    Some(Counts { files, changes, used })
}

/// No early way out, so that it runs over many numbers at once.
fn all_zero<T: Copy + std::ops::BitOr<Output = T> + PartialEq>(part: &[T], zero: T) -> bool {
    part.iter().fold(zero, |sum, &one| sum | one) == zero
}

/// A long name of the given length with zeros behind it.
fn judge_long_name(len: u32, field: &[u8]) -> Option<()> {
    let (text, rest) = field.split_at_checked(len as usize)?;
    holds(is_long_name(text) && all_zero(rest, 0))
}

/// File rows and slots; each through is compared with the change rows.
fn judge_files(numbers: &[u32], bytes: &[u8], counts: Counts) -> Option<()> {
    let mut before = (0, 0);
    let mut marks = [0u64; MOST_FILES];
    for file in 0..counts.files {
        let slot = &bytes[SLOTS + file * SLOT..][..SLOT];
        let (oid, date) = slot.split_at(LONG_NAME_LEN);
        judge_long_name(numbers[FILE_ROWS + file * ROW], oid)?;
        holds(is_date(date) && (file == 0 || file_date(bytes, file - 1) <= date))?;
        marks[file] = mark(oid);
        let same = |other: usize| bytes[SLOTS + other * SLOT..][..LONG_NAME_LEN] == *oid;
        holds((0..file).all(|other| marks[other] != marks[file] || !same(other)))?;
        let after = through(numbers, file + 1);
        holds(before.0 <= after.0 && after.0 <= counts.changes)?;
        holds(after.1 == end_of(numbers, after.0))?;
        before = after;
    }
    holds(before == (counts.changes, counts.used))
}

/// End of the last of the first `changes` changes.
fn end_of(numbers: &[u32], changes: usize) -> usize {
    match changes {
        0 => 0,
        some => numbers[CHANGE_ROWS + (some - 1) * ROW + 2] as usize,
    }
}

/// Takes the changes of an image in turn.
struct Judge<'a> {
    bytes: &'a [u8],
    live: Live,
    way: Way,
}

/// A key seen before whose entities are all live: changes of one form follow each other, and what
/// a key shares with the one before is compared as bytes and neither read nor looked up again.
#[derive(Default)]
struct Way {
    /// Where its bytes start.
    start: usize,
    /// Levels of it, none of them an item.
    len: usize,
    ids: [u16; ITEM],
    /// Bytes from the start through each level.
    ends: [usize; ITEM],
}

impl Way {
    /// How many levels, at most `most`, open the key at `start` too.
    fn shared(&self, bytes: &[u8], most: usize, start: usize, end: usize) -> usize {
        let known = &bytes[self.start..];
        let given = &bytes[start..end];
        let same = |&levels: &usize| {
            let len = self.ends[levels - 1];
            given.len() > len && given[..len] == known[..len]
        };
        (1..=most.min(self.len)).rev().find(same).unwrap_or(0)
    }

    fn end(&self, levels: usize) -> usize {
        if levels == 0 { 0 } else { self.ends[levels - 1] }
    }

    fn id(&self, levels: usize) -> u16 {
        if levels == 0 { ROOT } else { self.ids[levels - 1] }
    }

    /// Goes on from the first `level` levels, shared with the key at `start`.
    fn put(&mut self, start: usize, level: usize, id: u16, end: usize) {
        self.start = start;
        self.ids[level] = id;
        self.ends[level] = end;
        self.len = level + 1;
    }

    /// Drops an ended entity with all below it.
    fn drop(&mut self, depth: usize, id: u16) {
        if depth <= self.len && self.ids[depth - 1] == id {
            self.len = depth - 1;
        }
    }
}

impl<'a> Judge<'a> {
    fn new(bytes: &'a [u8]) -> Judge<'a> {
        Judge { bytes, live: Live::new(), way: Way::default() }
    }

    fn changes(mut self, numbers: &[u32], counts: Counts) -> Option<Live> {
        let rows = &numbers[CHANGE_ROWS..CHANGE_ROWS + counts.changes * ROW];
        let mut start = 0;
        for row in rows.chunks_exact(ROW) {
            let end = row[2] as usize;
            holds(start < end && end <= counts.used)?;
            self.change(row[0], row[1] as usize, CHANGE_BYTES + start, CHANGE_BYTES + end)?;
            start = end;
        }
        holds(start == counts.used)?;
        Some(self.live)
    }

    fn change(&mut self, kind: u32, depth: usize, start: usize, end: usize) -> Option<()> {
        holds((MAKE..=END).contains(&kind) && (1..=ITEM).contains(&depth))?;
        holds(kind != WRITE || depth == ITEM)?;
        let (parent, mut at) = self.parent(depth, start, end)?;
        let step = self.step(depth - 1, &mut at, end)?;
        self.judge_rest(kind, depth, at, end)?;
        let id = self.take(kind, parent, step)?;
        match kind {
            END => self.way.drop(depth, id),
            _ if depth == ITEM => self.live.set_value(id, at, end - at),
            _ => self.way.put(start, depth - 1, id, at - start),
        }
        Some(())
    }

    /// The live parent, and where the names of the entity itself begin. A parent that is not live
    /// is a fault for every kind of change.
    fn parent(&mut self, depth: usize, start: usize, end: usize) -> Option<(u16, usize)> {
        let shared = self.way.shared(self.bytes, depth - 1, start, end);
        let mut parent = self.way.id(shared);
        let mut at = start + self.way.end(shared);
        for level in shared..depth - 1 {
            let step = self.step(level, &mut at, end)?;
            parent = self.live.find(parent, &step).live?;
            self.way.put(start, level, parent, at - start);
        }
        Some((parent, at))
    }

    /// The names one level adds to a key.
    fn step(&self, level: usize, at: &mut usize, end: usize) -> Option<Step> {
        let oid = self.name(at, end)?;
        holds(oid != 0)?;
        let repeats = level != 0 && level != ITEM - 1;
        let repeat = if repeats { self.name(at, end)? } else { 0 };
        Some(Step { oid, repeat })
    }

    /// One length byte and its text; 0 if the length is 0.
    fn name(&self, at: &mut usize, end: usize) -> Option<u128> {
        holds(*at < end)?;
        let len = self.bytes[*at] as usize;
        let text = *at + 1;
        holds(len <= NAME_LEN && text + len <= end)?;
        *at = text + len;
        packed_name(self.bytes, text, len)
    }

    /// What follows the names: a value, or nothing.
    fn judge_rest(&self, kind: u32, depth: usize, at: usize, end: usize) -> Option<()> {
        let valued = depth == ITEM && kind != END;
        let most = if valued { VALUE_LEN } else { 0 };
        holds(end - at <= most && all_value_bytes(&self.bytes[at..end]))
    }

    fn take(&mut self, kind: u32, parent: u16, step: Step) -> Option<u16> {
        let place = self.live.find(parent, &step);
        match (kind, place.live) {
            (MAKE, None) if self.live.count() < MOST_LIVE => Some(self.live.make(place, parent, &step)),
            (WRITE, Some(id)) => Some(id),
            (END, Some(id)) => {
                self.live.end(id);
                Some(id)
            }
            _ => None,
        }
    }
}
