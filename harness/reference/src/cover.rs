//! Counts of the branches that the cover patches name, and of the events handed to the mode machine.

use std::cell::RefCell;
use std::collections::HashMap;

/// Every name that the patched sources count.
pub fn names() -> &'static [&'static str] {
    &include!(concat!(env!("OUT_DIR"), "/cover_names.rs"))
}

#[derive(Default)]
struct Counts {
    hits: HashMap<&'static str, u64>,
    conditions: HashMap<&'static str, [u64; 2]>,
    /// By mode met and event, with a position and without.
    events: [[[u64; 2]; 12]; 8],
}

thread_local! {
    static COUNTS: RefCell<Counts> = RefCell::default();
}

/// Count a branch.
pub fn hit(name: &'static str) {
    COUNTS.with_borrow_mut(|c| *c.hits.entry(name).or_default() += 1);
}

/// Count which way a condition went, and hand it on.
pub fn cond(name: &'static str, holds: bool) -> bool {
    COUNTS.with_borrow_mut(|c| c.conditions.entry(name).or_default()[usize::from(holds)] += 1);
    holds
}

/// Count an event handed to the mode machine.
pub fn event(mode: usize, event: usize, have_position: bool) {
    COUNTS.with_borrow_mut(|c| c.events[mode][event][usize::from(!have_position)] += 1);
}

/// How often a name of `names` was reached.
pub fn count(name: &str) -> u64 {
    COUNTS.with_borrow(|c| {
        if let Some(condition) = name.strip_suffix(": true") {
            return c.conditions.get(condition).map_or(0, |n| n[1]);
        }
        if let Some(condition) = name.strip_suffix(": false") {
            return c.conditions.get(condition).map_or(0, |n| n[0]);
        }
        c.hits.get(name).copied().unwrap_or(0)
    })
}

/// How often a mode met an event, with a position and without.
pub fn events(mode: usize, event: usize) -> [u64; 2] {
    COUNTS.with_borrow(|c| c.events[mode][event])
}
