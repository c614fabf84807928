//! The tests of the plain version. Run with `cargo test --release --offline`.
//! Seeds are fixed; every test writes its counts to standard error, past cargo's capture.

mod model;
mod support;

mod average;
mod bytes;
mod capacity;
mod damage;
mod edges;
mod ends;
mod fitness;
mod heights;
mod loads;
mod marks;
mod orders;
mod paper;
mod program;
mod rebuild;
mod refusals;
mod scratch;
mod search;
