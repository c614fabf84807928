//! How long the library's calls take, measured side by side with the same index in plain C and with simpler work;
//! docs/BENCHMARKS.md tells what it means.
//!
//!     cargo run --release --offline --manifest-path tests/bench/Cargo.toml --target-dir target/cargo
//!
//! A name behind it, instant, audit, listing or change, measures these rows alone; search, rounding, edges or rebuild, tables
//! of their own. For search, rounding and edges LUWHENOKA_BEFORE names the folder of another commit's archive.

#[macro_use]
mod copies;

mod agree;
mod booking;
mod edges;
mod even;
mod measure;
mod peer;
mod reading;
mod rebuilding;
mod rounding;
mod search;
mod seasons;
mod subjects;

/// The parts of the table, by the names that choose them.
const PARTS: [(&str, fn()); 4] = [
    ("instant", reading::instants_by_height),
    ("audit", reading::audits),
    ("listing", reading::listings),
    ("change", booking::changes),
];

/// Tables that stand apart.
const APART: [(&str, fn()); 4] = [
    ("search", search::searches),
    ("rounding", rounding::roundings),
    ("edges", edges::edges),
    ("rebuild", rebuilding::rebuilds),
];

fn main() {
    let asked: Vec<String> = std::env::args().skip(1).collect();
    if let [name] = &asked[..] {
        if let Some((_, tables)) = APART.iter().find(|(apart, _)| apart == name) {
            print_setup();
            tables();
            return;
        }
    }
    if let Some(unknown) = asked.iter().find(|name| PARTS.iter().all(|(part, _)| part != name)) {
        eprintln!(
            "{unknown}: not one of instant, audit, listing, change; search, rounding, edges and rebuild stand alone"
        );
        std::process::exit(2);
    }
    print_setup();
    agree::compare();
    println!();
    measure::print_head();
    for (_, measure) in PARTS.iter().filter(|(part, _)| asked.is_empty() || asked.iter().any(|name| name == part)) {
        measure();
    }
}

fn print_setup() {
    let cores = std::thread::available_parallelism().map_or(1, usize::from);
    println!("processor: {}, {cores} cores", processor());
    println!("plain C: {}, -O3 -std=c99", env!("PEER_COMPILER"));
    println!("{} rounds; times are the least, ratios the median over the rounds", measure::ROUNDS);
}

/// The processor's name, as Linux tells it.
fn processor() -> String {
    let facts = std::fs::read_to_string("/proc/cpuinfo").unwrap_or_default();
    let name = facts.lines().find(|line| line.starts_with("model name")).and_then(|line| line.split(": ").nth(1));
    name.unwrap_or("unknown").to_string()
}
