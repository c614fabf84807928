//! A small index from format to listing, and what damage to it does.
//!
//!     cargo run --release --offline --manifest-path rust/Cargo.toml --target-dir target/cargo --example rack

use std::error::Error;

use luwhenoka::{
    audit, average, average_of, enter, format, instant, listing, page_bytes, runs, scratch_bytes, withdraw, Average,
    Kind, Refusal, END, RUN_BYTES,
};

const PAGES: usize = 2;
const CAPACITY: u32 = 24;

/// Puts a number's bytes at a place of a page.
fn put(image: &mut [u8], page: usize, at: usize, bytes: &[u8]) {
    image[page_bytes(CAPACITY) * page + at..][..bytes.len()].copy_from_slice(bytes);
}

fn in_words(average: Average) -> String {
    match average {
        Average::None => "-".to_string(),
        Average::Hundredths(hundredths) => {
            let sign = if hundredths < 0 { "-" } else { "" };
            format!("{sign}{}.{:02}", hundredths.unsigned_abs() / 100, hundredths.unsigned_abs() % 100)
        }
        Average::Beyond => unreachable!("no image shows such a sum"),
    }
}

fn main() -> Result<(), Box<dyn Error>> {
    let mut image = [0; page_bytes(CAPACITY) * PAGES];
    let mut scratch = [0; scratch_bytes(PAGES)];
    format(&mut image, Kind::Totals, 0, CAPACITY)?;
    for (v, s, e) in [(6, 10, 40), (3, 20, 50), (7, 30, 60), (5, 20, 25)] {
        enter(&mut image, &mut scratch, v, s, e)?;
    }
    withdraw(&mut image, &mut scratch, 7, 30, 60)?;
    audit(&image, &mut scratch)?;

    let now = instant(&image, 22)?;
    println!("at 22: sum {}, count {}, average {}", now.sum, now.count, in_words(average(&image, 22)?));

    let mut output = [0; RUN_BYTES * CAPACITY as usize * (PAGES - 1)];
    let count = listing(&image, 0, END, &mut output)?;
    println!("runs {count}");
    for run in runs(&output, count) {
        let average = average_of(Kind::Totals, run.sum, run.count);
        println!("from {} sum {} count {} average {}", run.start, run.sum, run.count, in_words(average));
    }

    // Half a hundredth goes to the even hundredth.
    for (sum, count) in [(-1, 8), (-1, 200), (3, 200)] {
        println!("{sum} over {count} averages {}", in_words(average_of(Kind::Totals, sum, count)));
    }

    // A worn header: more entries than the page has room for.
    put(&mut image, 1, 4, &(CAPACITY + 1).to_le_bytes());
    let refused = instant(&image, 22).expect_err("25 entries are refused");
    assert_eq!(refused.refusal, Refusal::Unsound);
    println!("damaged: {refused}");
    Ok(())
}
