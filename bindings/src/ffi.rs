//! The C functions of the archive, as `include/hogunlas.h` declares them: the crate's only unsafe
//! code.
//!
//! What makes each call sound is the same everywhere. A slice's pointer is not null, also where
//! the slice is empty; it stands for as many bytes as the slice is long, which nobody else writes
//! during the call; and a `&mut` slice overlaps no other argument. The functions are proved for
//! all such arguments: they read and write within the lengths they are given, keep no pointer,
//! and return.
#![allow(unsafe_code)]

use crate::MAX_THREADS;

// The archive is made for x86-64, where C's size_t, Rust's usize and u64 are the same.
const _: () = assert!(usize::BITS == u64::BITS);

/// `hogunlas_judged`.
#[repr(C)]
pub(crate) struct Judged {
    pub refusal: u32,
    pub detail: u64,
    pub length: u64,
}

/// `hogunlas_counts`.
#[repr(C)]
pub(crate) struct Counts {
    pub moved: u64,
    pub waiting: u64,
    pub idle: u64,
}

/// `hogunlas_ran`.
#[repr(C)]
pub(crate) struct Ran {
    pub refusal: u32,
    pub detail: u64,
    pub threads: [Counts; MAX_THREADS],
}

/// `hogunlas_printed`.
#[repr(C)]
pub(crate) struct Printed {
    pub refusal: u32,
    pub detail: u64,
    pub length: u64,
}

extern "C" {
    fn hogunlas_judge(
        file: *const u8,
        file_length: usize,
        report: *mut u8,
        report_length: usize,
    ) -> Judged;

    fn hogunlas_run_by_thread(
        file: *const u8,
        file_length: usize,
        list: *const u8,
        list_length: usize,
        state: *mut u8,
        state_length: usize,
    ) -> Ran;

    fn hogunlas_line(
        file: *const u8,
        file_length: usize,
        i: u64,
        text: *mut u8,
        text_length: usize,
    ) -> Printed;
}

pub(crate) fn judge(file: &[u8], report: &mut [u8]) -> Judged {
    // SAFETY: each pointer comes with its own slice's length; see the top of this module.
    unsafe { hogunlas_judge(file.as_ptr(), file.len(), report.as_mut_ptr(), report.len()) }
}

pub(crate) fn run(file: &[u8], list: &[u8], state: &mut [u8]) -> Ran {
    // SAFETY: each pointer comes with its own slice's length; see the top of this module.
    unsafe {
        hogunlas_run_by_thread(
            file.as_ptr(),
            file.len(),
            list.as_ptr(),
            list.len(),
            state.as_mut_ptr(),
            state.len(),
        )
    }
}

pub(crate) fn line(file: &[u8], i: u64, text: &mut [u8]) -> Printed {
    // SAFETY: each pointer comes with its own slice's length; see the top of this module.
    unsafe { hogunlas_line(file.as_ptr(), file.len(), i, text.as_mut_ptr(), text.len()) }
}
