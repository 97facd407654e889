//! What the timings share.

/// The median and the least of some times, of which there is at least one.
pub fn median_and_least(mut times: Vec<f64>) -> (f64, f64) {
    times.sort_by(f64::total_cmp);
    (times[times.len() / 2], times[0])
}

/// The ratio of two medians and of the two least times.
pub fn shown_ratios(first: (f64, f64), second: (f64, f64)) -> String {
    format!("ratio of medians {:.3}, of least times {:.3}", first.0 / second.0, first.1 / second.1)
}
