//! A season of changes on one image, then a rebuild into a smaller one, which lists the same and goes on in its place.
//!
//!     cargo run --release --offline --manifest-path rust/Cargo.toml --target-dir target/cargo --example season

use std::error::Error;

use luwhenoka::{
    audit, enter, format, listing, page_bytes, rebuild, runs, scratch_bytes, withdraw, Kind, Refusal, Run, END,
    RUN_BYTES,
};

const CAPACITY: u32 = 8;
const PAGES: usize = 256;
const FEWER_PAGES: usize = 12;
/// How many bookings the season has, and how many of them are still live at its end.
const BOOKINGS: u32 = 400;
const LIVE: u32 = 20;

/// Booking i: value, start and end. They come in no order of time.
fn booking(i: u32) -> (i64, u32, u32) {
    let s = 10 + i * 7_919 % 10_007;
    (1 + i64::from(i % 9), s, s + 8)
}

/// A number of the head, by its place there.
fn head(image: &[u8], field: usize) -> u32 {
    u32::from_le_bytes(image[4 * field..][..4].try_into().expect("4 bytes"))
}

/// The pages in use: those below the high mark, without the free ones.
fn used(image: &[u8]) -> u32 {
    head(image, 5) - head(image, 4)
}

fn full_listing(image: &[u8]) -> Result<Vec<Run>, Refusal> {
    let mut output = [0; RUN_BYTES * CAPACITY as usize * (PAGES - 1)];
    let count = listing(image, 0, END, &mut output)?;
    Ok(runs(&output, count).collect())
}

fn tell(name: &str, image: &[u8]) -> Result<(), Refusal> {
    let (pages, height) = (head(image, 0), head(image, 1));
    println!("{name}: {} of {pages} pages used, height {height}, runs {}", used(image), full_listing(image)?.len());
    Ok(())
}

fn main() -> Result<(), Box<dyn Error>> {
    let mut image = [0; page_bytes(CAPACITY) * PAGES];
    let mut scratch = [0; scratch_bytes(PAGES)];
    format(&mut image, Kind::Totals, 0, CAPACITY)?;
    for (v, s, e) in (0..BOOKINGS).map(booking) {
        enter(&mut image, &mut scratch, v, s, e)?;
    }
    for (v, s, e) in (0..BOOKINGS - LIVE).map(booking) {
        withdraw(&mut image, &mut scratch, v, s, e)?;
    }
    tell("after the season", &image)?;

    // A target that is too small keeps its bytes.
    let mut tight = [0; page_bytes(CAPACITY) * FEWER_PAGES];
    let refused = rebuild(&image, &mut tight[..page_bytes(CAPACITY) * 4], &mut scratch);
    println!("into 4 pages: {}", refused.expect_err("four pages are too few"));
    assert_eq!(tight, [0; page_bytes(CAPACITY) * FEWER_PAGES]);

    rebuild(&image, &mut tight, &mut scratch)?;
    tell("rebuilt", &tight)?;
    assert_eq!(full_listing(&tight)?, full_listing(&image)?);
    assert_eq!(audit(&tight, &mut scratch), Ok(()));

    // From here on the smaller one takes the changes: what is live is withdrawn from it.
    for (v, s, e) in (BOOKINGS - LIVE..BOOKINGS).map(booking) {
        withdraw(&mut tight, &mut scratch, v, s, e)?;
    }
    tell("all withdrawn", &tight)?;
    Ok(())
}
