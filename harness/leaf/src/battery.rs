//! The battery: the estimator, what is shown and the silence, all by bits after every step.
//!
//! The Rust's side is the battery paragraph of `FlightSupervisor::step` itself, with the estimator in it.

use crate::same;
use proved::BATTERY_SIZE;
use reference::falcon_core::{CoreInputs, FlightCore, FlightSupervisor};
use reference::generate::float::{any, nudged};
use reference::random::Random;
use reference::relay_batt::{BattConfig, BattState, BatteryEstimator, TripLatch};
use reference::relay_preflight::CheckTable;
use reference::sheet::{answer_bits, Tick};

/// The pack's numbers are the first of a battery's.
const PACK_SIZE: usize = 8;

type Numbers = [u32; BATTERY_SIZE];

/// The numbers of a pack, in the order of crates/exports.
fn pack_numbers(c: &BattConfig) -> [u32; PACK_SIZE] {
    let f = answer_bits;
    [
        f(c.capacity_mah),
        c.cells,
        f(c.r_internal),
        f(c.low_soc),
        f(c.crit_soc),
        f(c.low_v_cell_fallback),
        f(c.crit_v_cell_fallback),
        f(c.debounce_s),
    ]
}

/// The numbers of the Rust's battery, in the order of crates/exports.
fn numbers_of(s: &FlightSupervisor) -> Numbers {
    let (e, b) = (&s.batt_est, &s.batt_state);
    let f = answer_bits;
    let [capacity_mah, cells, r_internal, low_soc, crit_soc, low_v, crit_v, debounce_s] = pack_numbers(&e.cfg);
    [
        capacity_mah,
        cells,
        r_internal,
        low_soc,
        crit_soc,
        low_v,
        crit_v,
        debounce_s,
        f(e.consumed_mah),
        f(e.r_est),
        f(e.prev_v),
        f(e.prev_i),
        e.have_prev.into(),
        f(e.low.below_s),
        e.low.latched.into(),
        f(e.critical.below_s),
        e.critical.latched.into(),
        f(b.volts),
        f(b.rest_volts),
        f(b.current_a),
        f(b.consumed_mah),
        f(b.soc),
        f(b.r_est),
        b.low.into(),
        b.critical.into(),
        b.degraded.into(),
        f(s.batt_missing_s),
        s.batt_present.into(),
        s.batt_seen.into(),
    ]
}

/// The Rust's battery, opened with a pack.
fn open(s: &mut FlightSupervisor, cfg: BattConfig) {
    s.batt_est = BatteryEstimator::new(cfg);
    s.batt_state = BattState::default();
    s.batt_missing_s = 0.0;
    s.batt_present = false;
    s.batt_seen = false;
}

/// The Rust's battery in any state, reachable or not.
fn disturb(s: &mut FlightSupervisor, r: &mut Random) {
    let flag = |r: &mut Random| r.one_in(2);
    let latch = |r: &mut Random| TripLatch { below_s: any(r), latched: r.one_in(3) };
    let e = &mut s.batt_est;
    e.consumed_mah = any(r);
    e.r_est = any(r);
    e.prev_v = any(r);
    e.prev_i = any(r);
    e.have_prev = flag(r);
    e.low = latch(r);
    e.critical = latch(r);
    s.batt_state = BattState {
        volts: any(r),
        rest_volts: any(r),
        current_a: any(r),
        consumed_mah: any(r),
        soc: any(r),
        r_est: any(r),
        low: flag(r),
        critical: flag(r),
        degraded: flag(r),
    };
    s.batt_missing_s = any(r);
    s.batt_present = flag(r);
    s.batt_seen = flag(r);
}

/// The built-in pack of so many cells at an opening's volts: one count for both thresholds and the readings, of which `update` takes 0 as 1.
fn pack_at(cells: u32, low: f32) -> BattConfig {
    let count = cells.max(1) as f32;
    BattConfig { cells, low_v_cell_fallback: low / count, crit_v_cell_fallback: low / count - 0.15, ..BattConfig::default() }
}

/// A count of cells, and an opening's volts for it.
fn opening(r: &mut Random) -> (u32, f32) {
    let cells = match r.below(8) {
        0..=2 => 6,
        3 | 4 => 4,
        5 | 6 => 1 + r.below(12) as u32,
        _ => r.pick(&[0, 0, 16_777_217, r.clone().bits() as u32]),
    };
    let low = if r.one_in(8) { any(r) } else { cells.max(1) as f32 * r.between(3.0, 4.0) };
    (cells, low)
}

/// The pack that the proved function opens with.
fn proved_pack(r: &mut Random, cells: u32, low: f32) -> [u32; PACK_SIZE] {
    let mut ours = [r.bits() as u32; BATTERY_SIZE];
    same("battery_opened, answer", (cells, low), proved::battery_opened(&mut ours, cells, low.to_bits()), 0);
    let mut again = ours;
    proved::battery_new(&mut again);
    same("battery_opened, behind the pack", (cells, low), ours, again);
    ours[..PACK_SIZE].try_into().unwrap()
}

/// An opening's pack: with six cells that of the Rust's constructor, with four that of docs/src, where patches 05 and 06 are not, and with any count
/// the same expressions over it. An opening of six cells has the thresholds of four at two thirds of the volts: these are multiples of 1/64, so that
/// the product is exact and both quotients are one number before rounding; 21.0 and 14.0 are among them.
fn openings(r: &mut Random, count: u64) {
    let table = CheckTable::from_masks(0, 0);
    let constructed = |low: f32| FlightSupervisor::with_core(FlightCore::default(), [0.0; 3], 0.0, 0.0, low, table).batt_est.cfg;
    let of_four =
        |low: f32| BattConfig { cells: 4, low_v_cell_fallback: low / 4.0, crit_v_cell_fallback: low / 4.0 - 0.15, ..BattConfig::default() };
    for _ in 0..count {
        let (cells, low) = opening(r);
        let rust = match cells {
            6 => constructed(low),
            4 => of_four(low),
            _ => pack_at(cells, low),
        };
        same("battery_opened", (cells, low), proved_pack(r, cells, low), pack_numbers(&rust));
    }
    let sixty_fourths = 60 * 64;
    for n in 0..=sixty_fourths {
        let low = n as f32 / 64.0;
        let six = BattConfig { cells: 6, ..of_four(low) };
        same("thresholds of six cells and of four", low, proved_pack(r, 6, low * 1.5), pack_numbers(&six));
    }
    println!(
        "leaf: battery: {count} openings with any count of cells, {} of six cells with the thresholds of four at two thirds of the volts",
        sixty_fourths + 1
    );
}

/// The built-in pack, one for an opening's volts, another plausible one, or any.
fn pack(r: &mut Random) -> BattConfig {
    let built_in = BattConfig::default();
    match r.below(10) {
        0..=2 => built_in,
        3 | 4 => {
            let (cells, low) = opening(r);
            pack_at(cells, low)
        }
        5..=7 => BattConfig {
            capacity_mah: r.between(1.0, 12000.0),
            cells: r.below(13) as u32,
            r_internal: r.between(0.0, 0.3),
            low_soc: r.between(0.1, 0.6),
            crit_soc: r.between(0.0, 0.3),
            low_v_cell_fallback: r.between(3.5, 4.0),
            crit_v_cell_fallback: r.between(3.3, 3.8),
            debounce_s: r.between(0.0, 3.0),
        },
        _ => BattConfig {
            capacity_mah: any(r),
            cells: r.pick(&[0, 1, 4, 6, 16_777_217, u32::MAX, r.clone().bits() as u32]),
            r_internal: any(r),
            low_soc: any(r),
            crit_soc: any(r),
            low_v_cell_fallback: any(r),
            crit_v_cell_fallback: any(r),
            debounce_s: any(r),
        },
    }
}

/// The seconds of a step.
fn seconds(r: &mut Random) -> f32 {
    match r.below(12) {
        0..=4 => r.between(0.001, 0.1),
        5 | 6 => r.between(0.0, 1.0),
        7 => r.pick(&[0.5, 1.0, 2.0, 0.25]),
        8 => nudged(r, 1.0, 2),
        9 => r.between(-3.0, 3.0),
        10 => r.between(1.0, 100.0),
        _ => any(r),
    }
}

/// Volts around what the pack's thresholds and the curve turn on.
fn volts(r: &mut Random, cfg: &BattConfig) -> f32 {
    let cells = cfg.cells.max(1) as f32;
    match r.below(10) {
        0..=4 => cells * r.between(3.3, 4.3),
        5 => {
            let knot = r.pick(&[3.5, 3.65, 3.72, 3.79, 3.85, 3.95, 4.1, 4.2]);
            nudged(r, cells * knot, 2)
        }
        6 => {
            let threshold = r.pick(&[cfg.low_v_cell_fallback, cfg.crit_v_cell_fallback]);
            nudged(r, cells * threshold, 2)
        }
        7 => cells * r.between(3.4, 3.6),
        8 => nudged(r, r.clone().pick(&[0.0, 5.0, 60.0]), 2),
        _ => any(r),
    }
}

/// Amps: steady, by steps around 5 A from the amps before, large, or any.
fn amps(r: &mut Random, before: f32) -> f32 {
    match r.below(10) {
        0..=2 => before,
        3 | 4 => {
            let step = nudged(r, 5.0, 2);
            before + if r.one_in(2) { step } else { -step }
        }
        5..=7 => r.between(0.0, 60.0),
        8 => r.between(-100.0, 700.0),
        _ => any(r),
    }
}

/// What was met on the way.
#[derive(Default)]
struct Met {
    packs: u64,
    four_cells: u64,
    six_cells: u64,
    disturbed: u64,
    readings: [u64; 3],
    low: u64,
    critical: u64,
    resistance: u64,
    nan: u64,
}

impl Met {
    fn note(&mut self, kind: u32, before: &Numbers, after: &Numbers) {
        self.readings[kind as usize] += 1;
        self.low += u64::from(before[14] == 0 && after[14] == 1);
        self.critical += u64::from(before[16] == 0 && after[16] == 1);
        self.resistance += u64::from(before[9] != after[9]);
        self.nan += u64::from(after.contains(&0x7FC0_0000));
    }
}

/// A list of readings from an opening, or from any state, until `left` steps are done.
fn run(s: &mut FlightSupervisor, r: &mut Random, met: &mut Met, left: u64) -> u64 {
    let cfg = pack(r);
    open(s, cfg);
    let mut ours = numbers_of(s);
    ours[8..].fill(r.bits() as u32);
    same("battery_new, answer", cfg, proved::battery_new(&mut ours), 0);
    same("battery_new", cfg, ours, numbers_of(s));
    met.packs += 1;
    met.four_cells += u64::from(cfg.cells == 4);
    met.six_cells += u64::from(cfg.cells == 6);
    if r.one_in(4) {
        disturb(s, r);
        ours = numbers_of(s);
        met.disturbed += 1;
    }
    let steps = (1 + r.below(200)).min(left);
    for _ in 0..steps {
        let before = ours;
        let kind = r.pick(&[0, 1, 1, 2, 2, 2, 2]);
        let (dt, v, i) = (seconds(r), volts(r, &cfg), amps(r, f32::from_bits(before[11])));
        let mut tick =
            Tick { dt, core: CoreInputs::default(), rpm: false, volts: (kind >= 1).then_some(v), amps: (kind == 2).then_some(i) };
        s.core_mut().begin(tick.core);
        s.step(&mut tick);
        let step = [dt.to_bits(), kind, v.to_bits(), i.to_bits()];
        same("battery_update, answer", (before, step), proved::battery_update(&mut ours, step[0], step[1], step[2], step[3]), 0);
        same("battery_update", (before, step), ours, numbers_of(s));
        met.note(kind, &before, &ours);
    }
    steps
}

/// A slice that is too short is left as it is, and what stands behind a battery too.
fn lengths() {
    for n in 0..BATTERY_SIZE + 4 {
        let mut numbers = vec![0x4000_0000u32; n];
        let before = numbers.clone();
        let short = u32::from(n < BATTERY_SIZE);
        same("battery_new, length", n, proved::battery_new(&mut numbers), short);
        same("battery_opened, length", n, proved::battery_opened(&mut numbers, 6, 0x41a8_0000), short);
        same("battery_update, length", n, proved::battery_update(&mut numbers, 0, 2, 0x41b4_0000, 0x4120_0000), short);
        let kept = if short == 1 { 0 } else { BATTERY_SIZE };
        same("battery, other numbers", n, &numbers[kept.min(n)..], &before[kept.min(n)..]);
    }
}

/// A kind of reading above 2 is read as 2.
fn kinds() {
    let mut opened = [0x4000_0000u32; BATTERY_SIZE];
    proved::battery_new(&mut opened);
    let after = |kind: u32| {
        let mut numbers = opened;
        proved::battery_update(&mut numbers, 0x3f80_0000, kind, 0x41b4_0000, 0x4120_0000);
        numbers
    };
    for kind in [3, 255, 256, u32::MAX] {
        same("battery_update, a kind above 2", kind, after(kind), after(2));
    }
}

/// Lists of steps from random packs.
pub fn steps(count: u64) {
    let mut r = Random::new(4);
    openings(&mut r, count / 10);
    lengths();
    kinds();
    let table = CheckTable::from_masks(0, 0);
    let mut s = FlightSupervisor::with_core(FlightCore::default(), [0.0; 3], 0.0, 0.0, 0.0, table);
    let mut met = Met::default();
    let mut done = 0;
    while done < count {
        done += run(&mut s, &mut r, &mut met, count - done);
    }
    let [nothing, volts, amps] = met.readings;
    println!("leaf: battery: {done} steps ({nothing} of nothing, {volts} of volts, {amps} of volts and amps), 29 numbers after each");
    println!(
        "leaf: battery: {} packs ({} of four cells, {} of six, {} of others), {} lists from a disturbed state; low tripped {} times, critical {}, resistance moved {}, a NaN in the state {}",
        met.packs,
        met.four_cells,
        met.six_cells,
        met.packs - met.four_cells - met.six_cells,
        met.disturbed,
        met.low,
        met.critical,
        met.resistance,
        met.nan
    );
}
