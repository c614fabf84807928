//! How often each call returned each status, at each K, and what changes did.

use crate::calls::{Answer, Call, NAMES};
use crate::capacities::Capacities;
use crate::edges::Edges;
use crate::halves::Halves;
use crate::places::Places;
use crate::rebuilds::Rebuilds;
use crate::scratches::Scratches;
use crate::spans::Spans;
use crate::steps::Steps;

const STATUSES: usize = 25;

/// The greatest height that a head may have.
const MOST_PAGES_READ: usize = 10;

/// A comparison of all groups does at least so many calls, and accepts at least so many changes.
const FEWEST_CALLS: u64 = 2_000_000;
const FEWEST_CHANGES: u64 = 150_000;

#[derive(Clone)]
pub struct Tally {
    statuses: Vec<[u64; STATUSES]>,
    /// Tree pages read by instants that were answered, and by those refused with 21.
    answered_pages: [u64; MOST_PAGES_READ + 1],
    refused_pages: [u64; MOST_PAGES_READ + 1],
    /// Averages by their case: none, hundredths, beyond.
    averages: [u64; 3],
    halves: Halves,
    pub capacities: Capacities,
    pub edges: Edges,
    places: Places,
    pub rebuilds: Rebuilds,
    pub scratches: Scratches,
    /// Of the instants that were answered.
    pub spans: Spans,
    /// Of the changes that were accepted.
    pub steps: Steps,
}

impl Default for Tally {
    fn default() -> Tally {
        Tally {
            statuses: vec![[0; STATUSES]; NAMES.len()],
            answered_pages: [0; MOST_PAGES_READ + 1],
            refused_pages: [0; MOST_PAGES_READ + 1],
            averages: [0; 3],
            halves: Halves::default(),
            capacities: Capacities::default(),
            edges: Edges::default(),
            places: Places::default(),
            rebuilds: Rebuilds::default(),
            scratches: Scratches::default(),
            spans: Spans::default(),
            steps: Steps::default(),
        }
    }
}

impl Tally {
    /// Counts a call in, with the image that it found.
    pub fn add(&mut self, call: Call, answer: &Answer, image: &[u8]) {
        self.capacities.add_call(call, answer, image);
        self.statuses[call.place()][answer.status as usize] += 1;
        match call {
            Call::Instant { t } if answer.status == 0 => {
                self.answered_pages[answer.pages as usize] += 1;
                self.places.add(image, t);
            }
            Call::Instant { .. } if answer.status == 21 => self.refused_pages[answer.pages as usize] += 1,
            Call::AverageOf { sum, count, .. } => {
                self.averages[answer.average as usize] += 1;
                if answer.average == 1 {
                    self.halves.add(sum, count);
                }
            }
            _ => {}
        }
    }

    pub fn add_all(&mut self, other: &Tally) {
        for (mine, theirs) in self.statuses.iter_mut().zip(&other.statuses) {
            add(mine, theirs);
        }
        add(&mut self.answered_pages, &other.answered_pages);
        add(&mut self.refused_pages, &other.refused_pages);
        add(&mut self.averages, &other.averages);
        self.halves.add_all(&other.halves);
        self.capacities.add_all(&other.capacities);
        self.edges.add_all(&other.edges);
        self.places.add_all(&other.places);
        self.rebuilds.add_all(&other.rebuilds);
        self.scratches.add_all(&other.scratches);
        self.spans.add_all(&other.spans);
        self.steps.add_all(&other.steps);
    }

    pub fn calls(&self) -> u64 {
        self.statuses.iter().flatten().sum()
    }

    pub fn print(&self) {
        for ((name, _), statuses) in NAMES.iter().zip(&self.statuses) {
            let total: u64 = statuses.iter().sum();
            let each: Vec<String> =
                (0..STATUSES).filter(|i| statuses[*i] > 0).map(|i| format!("{i}: {}", statuses[i])).collect();
            println!("{name:<11}{total:>9} calls, by status {}", each.join(", "));
        }
        println!(
            "instants by tree pages read: answered {}, refused {}",
            row(&self.answered_pages),
            row(&self.refused_pages)
        );
        println!(
            "averages of pairs: none {}, hundredths {}, beyond {}",
            self.averages[0], self.averages[1], self.averages[2]
        );
        self.halves.print();
        self.places.print();
        self.spans.print();
        self.scratches.print();
        self.steps.print();
        self.capacities.print();
        self.edges.print();
        self.rebuilds.print();
    }

    /// What should have occurred and didn't.
    pub fn lacking(&self) -> Vec<String> {
        let mut lacking = Vec::new();
        for ((name, possible), statuses) in NAMES.iter().zip(&self.statuses) {
            lacking.extend(possible.iter().filter(|i| statuses[**i as usize] == 0).map(|i| format!("{name} with {i}")));
        }
        for pages in 0..=MOST_PAGES_READ {
            if pages > 0 && self.answered_pages[pages] == 0 {
                lacking.push(format!("an instant answered from {pages} pages"));
            }
            if self.refused_pages[pages] == 0 {
                lacking.push(format!("an instant refused after {pages} pages"));
            }
        }
        let cases = ["none", "in hundredths", "beyond"];
        lacking.extend(
            cases.iter().zip(self.averages).filter(|(_, n)| *n == 0).map(|(case, _)| format!("an average {case}")),
        );
        lacking.extend(self.halves.lacking());
        lacking.extend(self.steps.lacking());
        lacking.extend(self.capacities.lacking());
        lacking.extend(self.edges.lacking());
        lacking.extend(self.scratches.lacking());
        lacking.extend(self.places.lacking());
        lacking.extend(self.rebuilds.lacking());
        lacking.extend(self.spans.lacking());
        if self.calls() < FEWEST_CALLS || self.steps.changes() < FEWEST_CHANGES {
            lacking.push(format!("{FEWEST_CALLS} calls and {FEWEST_CHANGES} accepted changes"));
        }
        lacking
    }
}

fn add<const N: usize>(mine: &mut [u64; N], theirs: &[u64; N]) {
    for (one, other) in mine.iter_mut().zip(theirs) {
        *one += other;
    }
}

fn row(counts: &[u64; MOST_PAGES_READ + 1]) -> String {
    counts.iter().enumerate().map(|(pages, count)| format!("{pages}: {count}")).collect::<Vec<_>>().join(", ")
}
