//! The proved root beside Rust's `f32::sqrt`, by bits.
//!
//! `root all` compares every pattern, `root quick` about two million, `root bench` times both. `all` and `quick` exit 1 on a difference.
//! With the feature `before` `bench` also times the proved root of another tree; `harness/bench root` builds and runs it so.

#[cfg(feature = "before")]
use proved::before;
use proved::sqrtf as proved;
use std::hint::black_box;
use std::time::Instant;

const CANONICAL_NAN: u32 = 0x7fc0_0000;
const INFINITY: u32 = 0x7f80_0000;
const LEAST_NORMAL: u32 = 0x0080_0000;
const ONE: u32 = 0x3f80_0000;

/// Rust's root. NaN is made canonical on the bits: a test of the float is dropped by the optimizer after `sqrt`.
#[inline(always)]
fn inlined(b: u32) -> u32 {
    let r = f32::from_bits(b).sqrt().to_bits();
    if r & 0x7fff_ffff > INFINITY {
        CANONICAL_NAN
    } else {
        r
    }
}

/// Rust's root as a call, as the proved one is.
#[inline(never)]
fn called(b: u32) -> u32 {
    inlined(b)
}

/// xorshift64
struct Random(u64);

impl Random {
    fn next(&mut self) -> u32 {
        self.0 ^= self.0 << 13;
        self.0 ^= self.0 >> 7;
        self.0 ^= self.0 << 17;
        (self.0 >> 16) as u32
    }

    fn below(&mut self, n: u32) -> u32 {
        ((u64::from(self.next()) * u64::from(n)) >> 32) as u32
    }
}

/// A square of a 12-digit number with an even exponent, so that its root is exact, and its neighbours.
fn near_square(r: &mut Random) -> u32 {
    let s = (2048 + r.below(2048)) as f32;
    let exponent = r.below(100) as i32 - 50;
    let square = s * s * 4f32.powi(exponent);
    square.to_bits() - 1 + r.below(3)
}

type Class = (&'static str, fn(&mut Random) -> u32);

const CLASSES: [Class; 4] = [
    ("normals", |r| LEAST_NORMAL + r.below(INFINITY - LEAST_NORMAL)),
    ("subnormals", |r| 1 + r.below(LEAST_NORMAL - 1)),
    ("powers of two", |r| match r.below(8) {
        0 => 1 << r.below(23),
        _ => (1 + r.below(254)) << 23,
    }),
    ("squares, one ulp", near_square),
];

/// Inputs of each class and of all mixed.
fn inputs(n: usize) -> Vec<(&'static str, Vec<u32>)> {
    let mut r = Random(0x9e37_79b9_7f4a_7c15);
    let mut all: Vec<(&'static str, Vec<u32>)> =
        CLASSES.iter().map(|&(name, make)| (name, (0..n).map(|_| make(&mut r)).collect())).collect();
    let mixed = (0..n).map(|_| CLASSES[r.below(4) as usize].1(&mut r)).collect();
    all.push(("all mixed", mixed));
    all
}

#[derive(Default)]
struct Found {
    compared: u64,
    different: u64,
    nan: u64,
    first: Option<u32>,
}

impl Found {
    fn compare(&mut self, b: u32) {
        let (ours, rust) = (proved(b), inlined(b));
        self.compared += 1;
        self.nan += u64::from(rust == CANONICAL_NAN);
        if ours != rust {
            self.different += 1;
            self.first.get_or_insert(b);
        }
    }

    fn add(mut self, other: Found) -> Found {
        self.compared += other.compared;
        self.different += other.different;
        self.nan += other.nan;
        self.first = self.first.or(other.first);
        self
    }

    /// Prints the counts; true where nothing differs.
    fn report(&self) -> bool {
        println!(
            "{} patterns compared with f32::sqrt, {} of them with the root NaN, {} differences",
            self.compared, self.nan, self.different
        );
        if let Some(b) = self.first {
            println!("first difference: root {b:08x} is {:08x} here and {:08x} in Rust", proved(b), inlined(b));
        }
        self.different == 0
    }
}

fn all() -> bool {
    let half = |from: u32| {
        move || {
            let mut found = Found::default();
            for b in from..=from + 0x7fff_ffff {
                found.compare(b);
            }
            found
        }
    };
    let threads = [0, 0x8000_0000].map(|from| std::thread::spawn(half(from)));
    threads.into_iter().map(|t| t.join().unwrap()).fold(Found::default(), Found::add).report()
}

fn quick() -> bool {
    let mut found = Found::default();
    for (_, list) in inputs(380_000) {
        for (i, b) in list.into_iter().enumerate() {
            found.compare(b);
            if i % 16 == 0 {
                found.compare(b ^ 0x8000_0000);
            }
        }
    }
    // around zero, the least normal number, one, two, infinity and the canonical NaN, with both signs
    for edge in [0, LEAST_NORMAL, ONE, ONE + LEAST_NORMAL, INFINITY, CANONICAL_NAN] {
        for d in 0..2000u32 {
            let b = edge.wrapping_add(d).wrapping_sub(1000);
            found.compare(b);
            found.compare(b ^ 0x8000_0000);
        }
    }
    found.report()
}

/// Nanoseconds a call over a list, each call by itself.
fn apart(list: &[u32], f: impl Fn(u32) -> u32) -> f64 {
    let start = Instant::now();
    let mut sum = 0u32;
    for &b in list {
        sum = sum.wrapping_add(black_box(f(black_box(b))));
    }
    black_box(sum);
    start.elapsed().as_nanos() as f64 / list.len() as f64
}

/// Nanoseconds a call where each call waits for the one before.
fn chained(list: &[u32], f: impl Fn(u32) -> u32) -> f64 {
    let start = Instant::now();
    let mut last = 0u32;
    for &b in list {
        last = f(black_box(b) ^ (last & 0x8000_0000));
    }
    black_box(last);
    start.elapsed().as_nanos() as f64 / list.len() as f64
}

/// The least time of the rounds: what others on the machine take is left out.
fn least(times: Vec<f64>) -> f64 {
    times.into_iter().fold(f64::INFINITY, f64::min)
}

const ROUNDS: usize = 41;

/// What is timed in every round.
const TIMED: &[fn(&[u32]) -> f64] = &[
    |list| apart(list, proved),
    |list| chained(list, proved),
    |list| apart(list, called),
    |list| chained(list, called),
    |list| apart(list, inlined),
    #[cfg(feature = "before")]
    |list| apart(list, before),
    #[cfg(feature = "before")]
    |list| chained(list, before),
];

/// The least times over a list, as in `TIMED`. Each round begins one place further and every other goes backwards, so that none gains by its place.
fn times(list: &[u32]) -> Vec<f64> {
    let n = TIMED.len();
    let mut t = vec![Vec::new(); n];
    for round in 0..ROUNDS {
        for i in 0..n {
            let place = if round % 2 == 0 { i } else { n - i };
            let k = (round + place) % n;
            t[k].push(TIMED[k](list));
        }
    }
    t.into_iter().map(least).collect()
}

fn bench() {
    println!("nanoseconds a call, least of {ROUNDS} rounds in turn over 2^18 inputs; ratio: the proved root over f32::sqrt as a call");
    println!("{:<18} {:^35} {:^26}", "", "apart", "chained");
    println!(
        "{:<18} {:>8} {:>8} {:>8} {:>8} {:>8} {:>8} {:>8}",
        "inputs", "proved", "called", "inlined", "ratio", "proved", "called", "ratio"
    );
    let (mut ratios, mut chains, mut beside) = (Vec::new(), Vec::new(), Vec::new());
    for (name, list) in inputs(1 << 18) {
        let t = times(&list);
        let (p, pc, c, cc, i) = (t[0], t[1], t[2], t[3], t[4]);
        ratios.push(p / c);
        chains.push(pc / cc);
        println!("{name:<18} {p:>8.2} {c:>8.2} {i:>8.2} {:>8.2} {pc:>8.2} {cc:>8.2} {:>8.2}", p / c, pc / cc);
        if let [b, bc] = t[5..] {
            beside.push((name, p, b, pc, bc));
        }
    }
    for (what, list) in [("apart", ratios), ("chained", chains)] {
        let (mean, worst) = mean_and_worst(&list);
        println!("{what}: mean ratio {mean:.2}, worst {worst:.2}");
    }
    if !beside.is_empty() {
        print_beside(&beside);
    }
}

fn mean_and_worst(list: &[f64]) -> (f64, f64) {
    (list.iter().sum::<f64>() / list.len() as f64, list.iter().cloned().fold(0.0, f64::max))
}

/// The proved root beside that of the other tree, of the same rounds: a name, the times apart and the times chained, of each the other tree's second.
fn print_beside(rows: &[(&str, f64, f64, f64, f64)]) {
    println!("\nthe same rounds; before: the proved root of the other tree; ratio: the proved root over it");
    println!("{:<18} {:^26} {:^26}", "", "apart", "chained");
    println!("{:<18} {1:>8} {2:>8} {3:>8} {1:>8} {2:>8} {3:>8}", "inputs", "proved", "before", "ratio");
    let (mut ratios, mut chains) = (Vec::new(), Vec::new());
    for &(name, p, b, pc, bc) in rows {
        ratios.push(p / b);
        chains.push(pc / bc);
        println!("{name:<18} {p:>8.2} {b:>8.2} {:>8.3} {pc:>8.2} {bc:>8.2} {:>8.3}", p / b, pc / bc);
    }
    for (what, list) in [("apart", ratios), ("chained", chains)] {
        let (mean, worst) = mean_and_worst(&list);
        println!("{what}: mean ratio {mean:.3}, worst {worst:.3}");
    }
}

fn main() {
    let ok = match std::env::args().nth(1).as_deref() {
        Some("all") => all(),
        Some("quick") => quick(),
        Some("bench") => {
            bench();
            true
        }
        _ => {
            eprintln!("usage: root all | quick | bench");
            false
        }
    };
    std::process::exit(i32::from(!ok));
}
