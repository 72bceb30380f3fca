//! One face for both implementations.

use crate::library;
pub use store::Answer;

pub trait Store {
    fn open(numbers: &mut [u32], bytes: &mut [u8], study: &[u8], version: &[u8]) -> Answer;
    fn import(numbers: &mut [u32], bytes: &mut [u8], file: &[u8]) -> Answer;
    fn withdraw(numbers: &mut [u32], bytes: &mut [u8], file_oid: &[u8]) -> Answer;
    fn snapshot(numbers: &[u32], bytes: &[u8], file_oid: &[u8], date: &[u8], output: &mut [u8]) -> Answer;
}

/// The hand-written store.
pub struct Peer;

impl Store for Peer {
    fn open(numbers: &mut [u32], bytes: &mut [u8], study: &[u8], version: &[u8]) -> Answer {
        store::open(numbers, bytes, study, version)
    }

    fn import(numbers: &mut [u32], bytes: &mut [u8], file: &[u8]) -> Answer {
        store::import(numbers, bytes, file)
    }

    fn withdraw(numbers: &mut [u32], bytes: &mut [u8], file_oid: &[u8]) -> Answer {
        store::withdraw(numbers, bytes, file_oid)
    }

    fn snapshot(numbers: &[u32], bytes: &[u8], file_oid: &[u8], date: &[u8], output: &mut [u8]) -> Answer {
        store::snapshot(numbers, bytes, file_oid, date, output)
    }
}

/// The proved store. Safe to call: each pointer goes with the length of its own slice, the borrows part the buffers,
/// and the library keeps no pointer.
pub struct Library;

fn answer(answer: library::Answer) -> Answer {
    Answer { refusal: answer.refusal, count: answer.count }
}

impl Store for Library {
    fn open(numbers: &mut [u32], bytes: &mut [u8], study: &[u8], version: &[u8]) -> Answer {
        answer(unsafe {
            library::odm_open(
                numbers.as_mut_ptr(),
                numbers.len(),
                bytes.as_mut_ptr(),
                bytes.len(),
                study.as_ptr(),
                study.len(),
                version.as_ptr(),
                version.len(),
            )
        })
    }

    fn import(numbers: &mut [u32], bytes: &mut [u8], file: &[u8]) -> Answer {
        answer(unsafe {
            library::odm_import(
                numbers.as_mut_ptr(),
                numbers.len(),
                bytes.as_mut_ptr(),
                bytes.len(),
                file.as_ptr(),
                file.len(),
            )
        })
    }

    fn withdraw(numbers: &mut [u32], bytes: &mut [u8], file_oid: &[u8]) -> Answer {
        answer(unsafe {
            library::odm_withdraw(
                numbers.as_mut_ptr(),
                numbers.len(),
                bytes.as_mut_ptr(),
                bytes.len(),
                file_oid.as_ptr(),
                file_oid.len(),
            )
        })
    }

    fn snapshot(numbers: &[u32], bytes: &[u8], file_oid: &[u8], date: &[u8], output: &mut [u8]) -> Answer {
        answer(unsafe {
            library::odm_snapshot(
                numbers.as_ptr(),
                numbers.len(),
                bytes.as_ptr(),
                bytes.len(),
                file_oid.as_ptr(),
                file_oid.len(),
                date.as_ptr(),
                date.len(),
                output.as_mut_ptr(),
                output.len(),
            )
        })
    }
}
