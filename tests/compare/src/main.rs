//! Compares the proved library with the plain version: every call by both, byte for byte.
//!
//!     cargo run --release --offline --manifest-path tests/compare/Cargo.toml --target-dir target/cargo [-- WORDS]
//!
//! WORDS: a number multiplies the rounds of what is random, with further seeds; `--only GROUP` does one group, and
//! `--part N` one part of it, to see a difference again.

mod asking;
mod calls;
mod capacities;
mod comparer;
mod edges;
mod groups;
mod guarded;
mod halves;
mod images;
mod places;
mod random;
mod rebuilds;
mod scratches;
mod spans;
mod steps;
mod tally;
mod work;

use std::process::ExitCode;
use std::time::Instant;

use comparer::{end_at_a_panic, Comparer};
use groups::{Group, GROUPS};
use images::Pool;
use tally::Tally;

struct Words {
    times: usize,
    only: Option<String>,
    part: Option<usize>,
}

impl Words {
    fn read() -> Option<Words> {
        let mut words = Words { times: 1, only: None, part: None };
        let mut given = std::env::args().skip(1);
        while let Some(word) = given.next() {
            match word.as_str() {
                "--only" => words.only = Some(given.next()?),
                "--part" => words.part = Some(given.next()?.parse().ok()?),
                number => words.times = number.parse().ok().filter(|times| *times > 0)?,
            }
        }
        Some(words)
    }

    /// The parts of groups that are asked for.
    fn parts(&self) -> Vec<(&'static Group, usize)> {
        let wanted = |group: &&Group| self.only.as_ref().is_none_or(|only| only == group.name);
        let parts = GROUPS.iter().filter(wanted).flat_map(|group| {
            let parts = if group.random { group.parts * self.times } else { group.parts };
            (0..parts).map(move |part| (group, part))
        });
        parts.filter(|(_, part)| self.part.is_none_or(|only| only == *part)).collect()
    }
}

/// Each part of a group has its own seed.
fn compared(group: &'static Group, part: usize, pool: &Pool) -> Tally {
    let name = group.name.bytes().fold(7u64, |seed, byte| seed.wrapping_mul(131).wrapping_add(u64::from(byte)));
    let mut comparer = Comparer::new(group.name, part, name.wrapping_add(1_000_003 * part as u64));
    (group.run)(&mut comparer, pool, part);
    comparer.tally
}

fn main() -> ExitCode {
    let Some(words) = Words::read() else {
        eprintln!("words: [TIMES] [--only GROUP] [--part N]");
        return ExitCode::from(2);
    };
    let parts = words.parts();
    if parts.is_empty() {
        eprintln!(
            "no such group or part; groups: {}",
            GROUPS.iter().map(|group| group.name).collect::<Vec<_>>().join(" ")
        );
        return ExitCode::from(2);
    }
    end_at_a_panic();
    let begun = Instant::now();
    let threads = std::thread::available_parallelism().map_or(1, usize::from);
    let pool = Pool::make(threads);
    let tallies = work::done(parts.len(), threads, |i| {
        let begun = Instant::now();
        (compared(parts[i].0, parts[i].1, &pool), begun.elapsed())
    });
    let mut total = Tally::default();
    for group in GROUPS {
        let mut tally = Tally::default();
        let mut seconds = 0.0;
        for (_, (one, took)) in parts.iter().zip(&tallies).filter(|((of, _), _)| of.name == group.name) {
            tally.add_all(one);
            seconds += took.as_secs_f64();
        }
        println!("group {:<16}{:>9} calls in {seconds:.1} s: {}", group.name, tally.calls(), group.what);
        total.add_all(&tally);
    }
    total.print();
    println!("{} calls compared in {:.0} s, no difference", total.calls(), begun.elapsed().as_secs_f64());
    let lacking = total.lacking();
    if words.only.is_none() && !lacking.is_empty() {
        println!("NOT TRIED: {}", lacking.join("; "));
        return ExitCode::FAILURE;
    }
    ExitCode::SUCCESS
}
