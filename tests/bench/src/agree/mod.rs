//! Before anything is timed: the peer and the library give equal answers and leave equal bytes. What is timed side by side
//! does the same work, then.

mod both;
mod capacity;
mod damage;
mod edges;
mod loads;
mod refusals;

use both::Both;

/// Compares every call; ends the program at the first difference, or if a status of a call didn't occur.
pub fn compare() {
    let mut both = Both::new(1);
    let images = loads::changes(&mut both);
    loads::without_spare_pages(&mut both);
    refusals::refusals(&mut both);
    capacity::fields(&mut both);
    capacity::heights(&mut both);
    damage::bounds(&mut both);
    edges::edges(&mut both, &images);
    for image in &images {
        damage::bytes(&mut both, image);
        damage::numbers(&mut both, image);
    }
    let missing = both.tally.missing();
    if !missing.is_empty() {
        println!("not tried: {}", missing.join(", "));
        std::process::exit(1);
    }
    println!(
        "{} calls of the library and of plain C compared, all equal: {}",
        both.tally.calls(),
        both.tally.by_name()
    );
}
