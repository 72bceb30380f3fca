//! Hand-written reference of the ODM 1.3.2 transaction store.
//!
//! Four calls over lent buffers: `open`, `import`, `withdraw`, `snapshot`. Each judges whatever it
//! is lent, answers a refusal number and a count, and changes nothing when it refuses.
#![forbid(unsafe_code)]

pub mod calls;
pub mod generate;
mod image;
mod import;
mod live;
mod names;
mod program;
mod scan;
mod snapshot;

pub use image::{BYTES_LEN, NUMBERS_LEN};
pub use program::run as run_program;

/// Longest file that is read.
pub const FILE_LEN: usize = 262_144;
/// No snapshot is longer.
pub const SNAPSHOT_LEN: usize = 148_480;

/// What every call gives back: a refusal number (0 accepted) and a count (0 when refused).
#[derive(Clone, Copy, Debug, PartialEq, Eq)]
pub struct Answer {
    pub refusal: u32,
    pub count: u32,
}

/// The refusal numbers.
pub mod refusal {
    pub const LENGTH: u32 = 1;
    pub const IMAGE: u32 = 2;
    pub const TOO_LONG: u32 = 3;
    pub const FORM: u32 = 4;
    pub const ELEMENT: u32 = 5;
    pub const ATTRIBUTE: u32 = 6;
    pub const VALUE: u32 = 7;
    pub const STUDY: u32 = 8;
    pub const SERIES: u32 = 9;
    pub const WORD: u32 = 10;
    pub const LIVE: u32 = 11;
    pub const NOT_LIVE: u32 = 12;
    pub const LIMIT: u32 = 13;
    pub const OUTPUT: u32 = 14;
    pub const NOT_LAST: u32 = 15;
    pub const MIXED: u32 = 16;
}

fn answer(result: Result<usize, u32>) -> Answer {
    match result {
        Ok(count) => Answer { refusal: 0, count: count as u32 },
        Err(refusal) => Answer { refusal, count: 0 },
    }
}

/// Writes the empty image of a study and version over anything.
pub fn open(numbers: &mut [u32], bytes: &mut [u8], study: &[u8], version: &[u8]) -> Answer {
    answer(image::open(numbers, bytes, study, version).map(|()| 0))
}

/// Reads one file into the store; the count is the changes added.
pub fn import(numbers: &mut [u32], bytes: &mut [u8], file: &[u8]) -> Answer {
    answer(import::import(numbers, bytes, file))
}

/// Strikes the last standing file; the count is the changes struck.
pub fn withdraw(numbers: &mut [u32], bytes: &mut [u8], file_oid: &[u8]) -> Answer {
    answer(image::withdraw(numbers, bytes, file_oid))
}

/// Writes what is live as a Snapshot file; the count is the bytes written.
pub fn snapshot(
    numbers: &[u32],
    bytes: &[u8],
    file_oid: &[u8],
    date: &[u8],
    output: &mut [u8],
) -> Answer {
    answer(snapshot::snapshot(numbers, bytes, file_oid, date, output))
}
