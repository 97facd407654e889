//! The proved leaf functions beside the Rust's own, by bits.
//!
//! `leaf quick` is part of the gate; `leaf full` makes the counts of harness/README.md. Both stop at the first difference, print its input and exit 1.

mod battery;
mod floats;
mod tables;

use std::fmt::Debug;
use std::time::Instant;

/// How much is compared.
pub struct Counts {
    /// Random patterns of the curve.
    pub curve: u64,
    /// Random patterns of max, clamp and sanitize, each.
    pub floats: u64,
    /// Random pairs of masks.
    pub masks: u64,
    /// Steps of the estimator.
    pub steps: u64,
}

const QUICK: Counts = Counts { curve: 1_000_000, floats: 1_000_000, masks: 200_000, steps: 1_000_000 };
const FULL: Counts = Counts { curve: 10_000_000, floats: 10_000_000, masks: 10_000_000, steps: 20_000_000 };

/// Ends the program where two answers differ.
pub fn same<I: Debug, O: PartialEq + Debug>(what: &str, input: I, proved: O, rust: O) {
    if proved != rust {
        println!("leaf: {what} differs at {input:x?}: {proved:x?} here and {rust:x?} in the Rust");
        std::process::exit(1);
    }
}

fn main() {
    let counts = match std::env::args().nth(1).as_deref() {
        Some("quick") => QUICK,
        Some("full") => FULL,
        _ => {
            eprintln!("usage: leaf quick | full");
            std::process::exit(2);
        }
    };
    let start = Instant::now();
    tables::modes();
    tables::policy();
    tables::checks(counts.masks);
    floats::curve(counts.curve);
    floats::small(counts.floats);
    battery::steps(counts.steps);
    println!("leaf: no difference, {:.1} s", start.elapsed().as_secs_f64());
}
