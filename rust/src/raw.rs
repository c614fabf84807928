//! The library's functions with the status that they return, for callers who want it as it is.
//!
//! [`ffi`] has the C functions themselves. The functions beside it take slices, so that they are safe: a slice is readable,
//! a `&mut` slice is writable and overlaps no other, and the library is proved to return on any content.

/// The C functions, as `include/luwhenoka.h` declares them.
pub mod ffi {
    use super::{AverageAnswer, InstantAnswer, ListingAnswer};

    extern "C" {
        pub fn luw_format(image: *mut u8, image_length: usize, kind: u32, window: u32, capacity: u32) -> u32;
        pub fn luw_instant(image: *const u8, image_length: usize, t: u32) -> InstantAnswer;
        pub fn luw_average(image: *const u8, image_length: usize, t: u32) -> AverageAnswer;
        pub fn luw_average_of(kind: u32, sum: i64, count: i32) -> AverageAnswer;
        pub fn luw_listing(
            image: *const u8,
            image_length: usize,
            a: u32,
            b: u32,
            output: *mut u8,
            output_length: usize,
        ) -> ListingAnswer;
        pub fn luw_audit(image: *const u8, image_length: usize, scratch: *mut u8, scratch_length: usize) -> u32;
        pub fn luw_enter(
            image: *mut u8,
            image_length: usize,
            scratch: *mut u8,
            scratch_length: usize,
            v: i64,
            s: u32,
            e: u32,
        ) -> u32;
        pub fn luw_withdraw(
            image: *mut u8,
            image_length: usize,
            scratch: *mut u8,
            scratch_length: usize,
            v: i64,
            s: u32,
            e: u32,
        ) -> u32;
        pub fn luw_rebuild(
            source: *const u8,
            source_length: usize,
            target: *mut u8,
            target_length: usize,
            scratch: *mut u8,
            scratch_length: usize,
        ) -> u32;
    }
}

/// `struct luw_instant_answer`; `start` and `end` are the leaf entry's, 0 and 0 at a refusal.
#[repr(C)]
#[derive(Clone, Copy, PartialEq, Eq, Debug)]
pub struct InstantAnswer {
    pub status: u32,
    pub pages: u32,
    pub sum: i64,
    pub count: i32,
    pub start: u32,
    pub end: u32,
}

/// `struct luw_average_answer`; `answer` is 0 for none, 1 for hundredths, 2 for a sum that no fit page can show.
#[repr(C)]
#[derive(Clone, Copy, PartialEq, Eq, Debug)]
pub struct AverageAnswer {
    pub status: u32,
    pub answer: u32,
    pub hundredths: i64,
}

/// `struct luw_listing_answer`
#[repr(C)]
#[derive(Clone, Copy, PartialEq, Eq, Debug)]
pub struct ListingAnswer {
    pub status: u32,
    pub runs: u32,
}

pub fn format(image: &mut [u8], kind: u32, window: u32, capacity: u32) -> u32 {
    unsafe { ffi::luw_format(image.as_mut_ptr(), image.len(), kind, window, capacity) }
}

pub fn instant(image: &[u8], t: u32) -> InstantAnswer {
    unsafe { ffi::luw_instant(image.as_ptr(), image.len(), t) }
}

pub fn average(image: &[u8], t: u32) -> AverageAnswer {
    unsafe { ffi::luw_average(image.as_ptr(), image.len(), t) }
}

pub fn average_of(kind: u32, sum: i64, count: i32) -> AverageAnswer {
    unsafe { ffi::luw_average_of(kind, sum, count) }
}

pub fn listing(image: &[u8], a: u32, b: u32, output: &mut [u8]) -> ListingAnswer {
    unsafe { ffi::luw_listing(image.as_ptr(), image.len(), a, b, output.as_mut_ptr(), output.len()) }
}

pub fn audit(image: &[u8], scratch: &mut [u8]) -> u32 {
    unsafe { ffi::luw_audit(image.as_ptr(), image.len(), scratch.as_mut_ptr(), scratch.len()) }
}

pub fn enter(image: &mut [u8], scratch: &mut [u8], v: i64, s: u32, e: u32) -> u32 {
    unsafe { ffi::luw_enter(image.as_mut_ptr(), image.len(), scratch.as_mut_ptr(), scratch.len(), v, s, e) }
}

pub fn withdraw(image: &mut [u8], scratch: &mut [u8], v: i64, s: u32, e: u32) -> u32 {
    unsafe { ffi::luw_withdraw(image.as_mut_ptr(), image.len(), scratch.as_mut_ptr(), scratch.len(), v, s, e) }
}

pub fn rebuild(source: &[u8], target: &mut [u8], scratch: &mut [u8]) -> u32 {
    let (source, source_length) = (source.as_ptr(), source.len());
    let (target, target_length) = (target.as_mut_ptr(), target.len());
    unsafe { ffi::luw_rebuild(source, source_length, target, target_length, scratch.as_mut_ptr(), scratch.len()) }
}
