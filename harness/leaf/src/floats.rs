//! The curve and the three cuts.

use crate::same;
use reference::generate::float::any;
use reference::random::Random;
use reference::relay_batt::{ocv_soc_cell, sanitize};
use reference::sheet::answer_bits;

/// The curve over every f32 of a range that has all its knots, and over random patterns.
pub fn curve(random: u64) {
    let compare = |v: u32| same("ocv_soc_cell", v, proved::ocv_soc_cell(v), answer_bits(ocv_soc_cell(f32::from_bits(v))));
    let range = 3.4f32.to_bits()..=4.3f32.to_bits();
    let mut compared = 0u64;
    for v in range {
        compare(v);
        compared += 1;
    }
    let mut r = Random::new(2);
    for _ in 0..random {
        compare(r.bits() as u32);
    }
    println!("leaf: curve: every f32 from 3.4 to 4.3 ({compared}), {random} random patterns");
}

/// Any pattern, the unusual ones often.
fn pattern(r: &mut Random) -> u32 {
    if r.one_in(4) {
        r.bits() as u32
    } else {
        any(r).to_bits()
    }
}

/// `max`, `clamp` and `sanitize` on random patterns.
///
/// Rust leaves open which zero `max` gives of two zeros of other signs; its `clamp` takes only lo <= hi.
pub fn small(random: u64) {
    let mut r = Random::new(3);
    let (mut zeros, mut clamps) = (0u64, 0u64);
    for _ in 0..random {
        let [x, y, z, d] = std::array::from_fn(|_| pattern(&mut r));
        let [fx, fy, fz, fd] = [x, y, z, d].map(f32::from_bits);
        if x != y && fx == 0.0 && fy == 0.0 {
            same("max of two zeros", (x, y), proved::max(x, y) << 1, 0);
            zeros += 1;
        } else {
            same("max", (x, y), proved::max(x, y), answer_bits(fx.max(fy)));
        }
        if fy <= fz {
            same("clamp", (x, y, z), proved::clamp(x, y, z), answer_bits(fx.clamp(fy, fz)));
            clamps += 1;
        }
        same("sanitize", (x, y, z, d), proved::sanitize(x, y, z, d), answer_bits(sanitize(fx, fy, fz, fd)));
    }
    println!("leaf: {random} random patterns of max ({zeros} of two zeros of other signs) and sanitize, {clamps} of clamp");
}
