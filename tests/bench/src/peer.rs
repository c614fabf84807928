//! The peer's functions, which take slices as those of `luwhenoka::raw` do; its answers have the same fields.

use luwhenoka::raw::{AverageAnswer, InstantAnswer, ListingAnswer};

extern "C" {
    fn peer_instant(image: *const u8, image_length: usize, t: u32) -> InstantAnswer;
    fn peer_average(image: *const u8, image_length: usize, t: u32) -> AverageAnswer;
    fn peer_listing(
        image: *const u8,
        image_length: usize,
        a: u32,
        b: u32,
        output: *mut u8,
        output_length: usize,
    ) -> ListingAnswer;
    fn peer_audit(image: *const u8, image_length: usize, scratch: *mut u8, scratch_length: usize) -> u32;
    fn peer_enter(
        image: *mut u8,
        image_length: usize,
        scratch: *mut u8,
        scratch_length: usize,
        v: i64,
        s: u32,
        e: u32,
    ) -> u32;
    fn peer_withdraw(
        image: *mut u8,
        image_length: usize,
        scratch: *mut u8,
        scratch_length: usize,
        v: i64,
        s: u32,
        e: u32,
    ) -> u32;
}

pub fn instant(image: &[u8], t: u32) -> InstantAnswer {
    unsafe { peer_instant(image.as_ptr(), image.len(), t) }
}

pub fn average(image: &[u8], t: u32) -> AverageAnswer {
    unsafe { peer_average(image.as_ptr(), image.len(), t) }
}

pub fn listing(image: &[u8], a: u32, b: u32, output: &mut [u8]) -> ListingAnswer {
    unsafe { peer_listing(image.as_ptr(), image.len(), a, b, output.as_mut_ptr(), output.len()) }
}

pub fn audit(image: &[u8], scratch: &mut [u8]) -> u32 {
    unsafe { peer_audit(image.as_ptr(), image.len(), scratch.as_mut_ptr(), scratch.len()) }
}

pub fn enter(image: &mut [u8], scratch: &mut [u8], v: i64, s: u32, e: u32) -> u32 {
    unsafe { peer_enter(image.as_mut_ptr(), image.len(), scratch.as_mut_ptr(), scratch.len(), v, s, e) }
}

pub fn withdraw(image: &mut [u8], scratch: &mut [u8], v: i64, s: u32, e: u32) -> u32 {
    unsafe { peer_withdraw(image.as_mut_ptr(), image.len(), scratch.as_mut_ptr(), scratch.len(), v, s, e) }
}
