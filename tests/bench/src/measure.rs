//! Work measured side by side.

use std::hint::black_box;
use std::time::Instant;

/// What a work is, by the column of a table that it fills.
#[derive(Clone, Copy, PartialEq, Eq)]
pub enum Column {
    Library,
    Before,
    PlainC,
    Known,
    Copying,
    Map,
    Listing,
    Audit,
    AuditBefore,
    Filling,
}

/// A piece of work: done once, it does `units` of what is counted, and gives a number so that nothing is left out.
pub struct Work<'a> {
    column: Column,
    units: usize,
    run: Box<dyn FnMut() -> u64 + 'a>,
}

impl<'a> Work<'a> {
    pub fn new(column: Column, units: usize, run: impl FnMut() -> u64 + 'a) -> Work<'a> {
        Work { column, units, run: Box::new(run) }
    }

    /// The same work by several as one: each in turn does it so often.
    pub fn in_turn(column: Column, times: usize, works: impl Iterator<Item = Work<'a>>) -> Work<'a> {
        let mut works: Vec<Work> = works.collect();
        let units = times * works.iter().map(|work| work.units).sum::<usize>();
        Work::new(column, units, move || {
            works.iter_mut().map(|work| (0..times).map(|_| (work.run)()).sum::<u64>()).sum()
        })
    }
}

/// What a work took: the least of the rounds, for each unit, the median over the rounds of the first work's time by its own,
/// and each round's time.
pub struct Took {
    column: Column,
    nanoseconds: f64,
    pub ratio: f64,
    rounds: Vec<f64>,
}

impl Took {
    /// The median over the rounds of its time by what others took together.
    pub fn by_all(&self, others: &[&Took]) -> f64 {
        let together = |round: usize| others.iter().map(|other| other.rounds[round]).sum::<f64>();
        median(self.rounds.iter().enumerate().map(|(round, own)| own / together(round)).collect())
    }

    /// One digit after the point where there are less than three before it.
    pub fn time(&self) -> String {
        if self.nanoseconds < 100.0 {
            format!("{:.1}", self.nanoseconds)
        } else {
            format!("{:.0}", self.nanoseconds)
        }
    }
}

pub const ROUNDS: usize = 41;

/// A round does each work in turn, as often as fills about a fifth of a millisecond. The first round warms and isn't counted.
pub fn side_by_side(mut works: Vec<Work>) -> Vec<Took> {
    let repeats: Vec<usize> = works.iter_mut().map(repeats_for).collect();
    let mut times = vec![Vec::with_capacity(ROUNDS); works.len()];
    for round in 0..=ROUNDS {
        for (i, work) in works.iter_mut().enumerate() {
            let begun = Instant::now();
            for _ in 0..repeats[i] {
                black_box((work.run)());
            }
            let each = begun.elapsed().as_nanos() as f64 / (repeats[i] * work.units) as f64;
            if round > 0 {
                times[i].push(each);
            }
        }
    }
    let first = times[0].clone();
    let took = works.iter().zip(times).map(|(work, rounds)| {
        let ratio = median(first.iter().zip(&rounds).map(|(first, own)| first / own).collect());
        let nanoseconds = rounds.iter().copied().fold(f64::MAX, f64::min);
        Took { column: work.column, nanoseconds, ratio, rounds }
    });
    took.collect()
}

fn repeats_for(work: &mut Work) -> usize {
    black_box((work.run)());
    let begun = Instant::now();
    black_box((work.run)());
    (200_000 / begun.elapsed().as_nanos().max(1)).clamp(1, 10_000) as usize
}

fn median(mut values: Vec<f64>) -> f64 {
    values.sort_by(f64::total_cmp);
    values[values.len() / 2]
}

// ---------------------------------------------------------------- the table

/// The head of the table in Markdown.
pub fn print_head() {
    println!("| call and case | ns | × plain C | × copying | × map of runs |");
    println!("|--|--|--|--|--|");
}

/// Measures a row and prints it: the library's time, whose work is the first, and how many times as long it takes as each
/// other work, with that one's own time in brackets.
pub fn row(case: &str, works: Vec<Work>) {
    let took = side_by_side(works);
    let cell = |column: Column| match took.iter().find(|took| took.column == column) {
        Some(took) => format!("{:.2} ({})", took.ratio, took.time()),
        None => "–".to_string(),
    };
    let cells = [Column::PlainC, Column::Copying, Column::Map].map(cell);
    println!("| {case} | {} | {} |", took[0].time(), cells.join(" | "));
}
