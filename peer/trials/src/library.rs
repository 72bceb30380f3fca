//! The C interface of include/odm_store.h. Nothing checks these declarations against it but the trials themselves.

#[repr(C)]
#[derive(Clone, Copy)]
pub struct Answer {
    pub refusal: u32,
    pub count: u32,
}

extern "C" {
    pub fn odm_open(
        numbers: *mut u32,
        numbers_length: usize,
        bytes: *mut u8,
        bytes_length: usize,
        study: *const u8,
        study_length: usize,
        version: *const u8,
        version_length: usize,
    ) -> Answer;

    pub fn odm_import(
        numbers: *mut u32,
        numbers_length: usize,
        bytes: *mut u8,
        bytes_length: usize,
        file: *const u8,
        file_length: usize,
    ) -> Answer;

    pub fn odm_withdraw(
        numbers: *mut u32,
        numbers_length: usize,
        bytes: *mut u8,
        bytes_length: usize,
        file_oid: *const u8,
        file_oid_length: usize,
    ) -> Answer;

    pub fn odm_snapshot(
        numbers: *const u32,
        numbers_length: usize,
        bytes: *const u8,
        bytes_length: usize,
        file_oid: *const u8,
        file_oid_length: usize,
        date: *const u8,
        date_length: usize,
        output: *mut u8,
        output_length: usize,
    ) -> Answer;
}
