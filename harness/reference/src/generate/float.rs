//! Floats for the generator: any pattern, and the two floats between which a test changes.

use crate::random::Random;

/// Limits of the Rust, for values near them.
pub const LIMITS: [f32; 34] = [
    0.0, 0.02, 0.1, 0.15, 0.2, 0.25, 0.3, 0.4, 0.5, 0.7, 0.95, 1.0, 1.05, 1.2, 1.6, 2.0, 3.0, 3.5, 3.65, 3.72, 3.79, 3.85, 3.95, 4.0, 4.1,
    4.2, 5.0, 8.0, 30.0, 60.0, 100.0, 120.0, 500.0, 5000.0,
];

/// Any bit pattern, with the unusual ones often.
pub fn any(r: &mut Random) -> f32 {
    match r.below(10) {
        0 => f32::from_bits(r.bits() as u32),
        1 => {
            let sign = (r.below(2) as u32) << 31;
            let payload = 1 + r.below(0x7F_FFFF) as u32;
            f32::from_bits(sign | 0x7F80_0000 | payload)
        }
        2 => r.pick(&[f32::INFINITY, f32::NEG_INFINITY, f32::MAX, f32::MIN, f32::MIN_POSITIVE]),
        3 => f32::from_bits((r.below(2) as u32) << 31 | r.below(0x80_0000) as u32),
        4 => r.pick(&[0.0, -0.0, 1.0, -1.0]),
        5 | 6 => {
            let limit = r.pick(&LIMITS);
            let near = nudged(r, limit, 2);
            if r.one_in(2) {
                -near
            } else {
                near
            }
        }
        7 | 8 => r.between(-20.0, 20.0),
        _ => r.between(-300.0, 300.0),
    }
}

/// A place of floats in their order.
fn key(x: f32) -> i64 {
    let bits = x.to_bits();
    let magnitude = i64::from(bits & 0x7FFF_FFFF);
    if bits >> 31 == 1 {
        -magnitude - 1
    } else {
        magnitude
    }
}

fn of_key(key: i64) -> f32 {
    if key < 0 {
        f32::from_bits(0x8000_0000 | (-key - 1) as u32)
    } else {
        f32::from_bits(key as u32)
    }
}

/// The float, up to `by` steps up or down.
pub fn nudged(r: &mut Random, x: f32, by: u64) -> f32 {
    if x.is_nan() {
        return x;
    }
    let key = key(x) + r.below(2 * by + 1) as i64 - by as i64;
    let infinite = i64::from(f32::INFINITY.to_bits());
    of_key(key.clamp(-infinite - 1, infinite))
}

/// One of the floats around the place between `low` and `high` where a test changes; a float between them where it doesn't.
pub fn boundary(r: &mut Random, low: f32, high: f32, test: impl Fn(f32) -> bool) -> f32 {
    let (mut a, mut b) = (key(low), key(high));
    let at_low = test(low);
    if at_low == test(high) {
        return r.between(low, high);
    }
    while b - a > 1 {
        let middle = a + (b - a) / 2;
        if test(of_key(middle)) == at_low {
            a = middle;
        } else {
            b = middle;
        }
    }
    let on = if r.one_in(2) { a } else { b };
    let x = of_key(on);
    if r.one_in(4) {
        nudged(r, x, 1)
    } else {
        x
    }
}
