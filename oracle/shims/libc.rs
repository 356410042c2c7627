//! The names that bpe/mod.rs takes from `libc`, with Linux's numbers.

#![allow(non_camel_case_types)]

pub use std::ffi::c_void;

pub const MADV_HUGEPAGE: i32 = 14;

unsafe extern "C" {
    pub fn madvise(start: *mut c_void, length: usize, advice: i32) -> i32;
}
