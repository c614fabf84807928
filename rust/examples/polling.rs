//! A host that has to know at every second what is booked. It asks once, and again only when its clock has reached the end of the
//! answer, or when the index was changed.
//!
//!     cargo run --release --offline --manifest-path rust/Cargo.toml --target-dir target/cargo --example polling

use std::error::Error;

use luwhenoka::{enter, format, instant, page_bytes, scratch_bytes, Instant, Kind};

const PAGES: usize = 2;
const CAPACITY: u32 = 24;
const SECONDS: u32 = 60;

/// What is booked while the host runs: at which second, and then value, start and end.
const BOOKINGS: [(u32, i64, u32, u32); 3] = [(0, 6, 10, 40), (0, 3, 20, 50), (32, 5, 35, 45)];

fn main() -> Result<(), Box<dyn Error>> {
    let mut image = [0; page_bytes(CAPACITY) * PAGES];
    let mut scratch = [0; scratch_bytes(PAGES)];
    format(&mut image, Kind::Totals, 0, CAPACITY)?;

    let mut known: Option<Instant> = None;
    let mut calls = 0;
    for clock in 0..SECONDS {
        for (_, v, s, e) in BOOKINGS.into_iter().filter(|(second, ..)| *second == clock) {
            enter(&mut image, &mut scratch, v, s, e)?;
            known = None; // an answer tells nothing of an index that was changed behind it
        }
        if known.is_none_or(|answer| answer.until().is_some_and(|end| end <= clock)) {
            let answer = instant(&image, clock)?;
            let until = answer.until().map_or("for ever".to_string(), |end| format!("until {end}"));
            println!("at {clock}: sum {}, count {}, {until}", answer.sum, answer.count);
            known = Some(answer);
            calls += 1;
        }
    }
    println!("{SECONDS} seconds: {calls} calls, {} saved", SECONDS - calls);
    Ok(())
}
