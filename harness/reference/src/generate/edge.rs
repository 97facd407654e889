//! The profile `edge`: values one step around every limit of the Rust, and counts one around 50 and 125.

use super::{event, float, roof, Generator, OpeningLine, Step, TickLine, FOR_FOUR_CELLS, ODD_PADS};
use crate::falcon_core::OpeningKind;
use crate::relay_batt::{BattConfig, BatteryEstimator};
use crate::relay_fsm::Mode;
use crate::relay_preflight::CheckId;
use crate::sheet::{self, Opening};

/// Lines after which the later scenarios come too: the sheets of crates/rows are shorter and do not change with them.
const LATER: usize = 1_000;

/// One scenario, begun by an opening of its own.
pub fn scenario(g: &mut Generator) -> Step {
    if g.raised_one_in(8) {
        return odd_pads(g);
    }
    let scenarios = if g.written() < LATER { 28 } else { 33 };
    match g.random.below(scenarios) {
        0 => {
            let o = plain(g);
            takeoff_height(g, o)
        }
        1 => home_distances(g),
        2 => touchdown(g),
        3 => legs(g),
        4 | 5 => braking(g),
        6 => fence(g),
        7 | 8 => tilted(g),
        9 | 10 => windy(g),
        11 => silence(g),
        12 => volts_only(g),
        13 => charge(g),
        14 | 15 => charge_shown(g),
        16 => spent(g),
        17 => resistance(g),
        18 => points(g),
        19 | 20 => zones(g),
        21 => checks(g),
        22 => order_of_checks(g),
        23 => odd_times(g),
        24 => every_event(g),
        25 => up_and_down(g),
        26 => volts_shown(g),
        27 => critical_near_ground(g),
        28 => {
            // Heights 0.2 below a cruise height just above a power of two have a finer step than it, so that h > cruise - 0.2 and h + 0.2 > cruise differ.
            let power = g.random.pick(&[4.0, 8.0, 16.0, 32.0]);
            let cruise = if g.random.one_in(2) { power + g.random.between(0.0, 0.2) } else { g.random.between(0.0, 60.0) };
            let mut o = OpeningLine { cruise, ..PLAIN };
            pad(g, &mut o);
            takeoff_height(g, o)
        }
        29 => far_points(g),
        30 => wind_runs_on(g),
        31 => latch_runs_on(g),
        _ => goal_at_hand(g),
    }
}

const PLAIN: OpeningLine = OpeningLine::PLAIN;

/// A tick high up and away from home.
const AWAY: TickLine = TickLine {
    dt: 0.02,
    p: [5.0, 0.0, -5.0],
    v: [0.0; 3],
    tilt: 0.0,
    uncertainty: 0.0,
    motor: 0.0,
    nav: 0,
    gnss: 0,
    failed: 0,
    rpm: 0,
    volts: None,
    amps: None,
};

/// The same over the pad of an opening.
fn away(o: &OpeningLine) -> TickLine {
    TickLine { p: [5.0, 0.0, o.z_at(5.0)], ..AWAY }
}

fn length(x: f32, y: f32) -> f32 {
    (x * x + y * y).sqrt()
}

/// An opening with a home that is zero or not, a fence and a cruise height.
fn plain(g: &mut Generator) -> OpeningLine {
    let mut o = PLAIN;
    if g.random.one_in(2) {
        o.home = [g.random.between(-9.0, 9.0), g.random.between(-9.0, 9.0), g.random.between(-3.0, 3.0)];
    }
    o.fence = g.random.pick(&[100.0, 50.0, 33.3]);
    o.cruise = g.random.pick(&[10.0, 7.3, 10.25, 20.0]);
    o.required = g.random.pick(&[0, 0, 1 << 18]);
    o.passed = o.required;
    pad(g, &mut o);
    o
}

/// Of eight openings two have a raised pad on a roof, one where home was drawn, and one a roof opened by kind 1.
fn pad(g: &mut Generator, o: &mut OpeningLine) {
    let Some(r) = &mut g.raised else { return };
    match r.below(8) {
        0 | 1 => (o.kind, o.home[2]) = (OpeningKind::Raised, roof(r)),
        2 => o.kind = OpeningKind::Raised,
        3 => o.home[2] = roof(r),
        _ => {}
    }
}

/// Open and lead to a mode by commands.
fn enter(g: &mut Generator, o: OpeningLine, mode: Mode) -> Step {
    g.open(o)?;
    let way: &[u32] = match mode {
        Mode::Disarmed => &[],
        Mode::Armed => &[0],
        Mode::Takeoff => &[0, 1],
        Mode::Loiter => &[0, 1, 7],
        Mode::Mission => &[0, 1, 7, 2],
        Mode::Land => &[0, 1, 4, 5],
        Mode::Rtl => &[0, 1, 4],
        Mode::Terminated => &[11],
    };
    for &event in way {
        g.command(event)?;
    }
    Ok(())
}

/// A place at a distance from another, within a step or two.
fn place_at(g: &mut Generator, from: [f32; 2], distance: f32) -> [f32; 2] {
    let share = g.random.pick(&[0.0, 0.6, 0.1, 0.99]);
    let y = from[1] + distance * share;
    let dy = y - from[1];
    let x = float::boundary(&mut g.random, from[0], from[0] + 2.0 * distance, |x| length(x - from[0], dy) < distance);
    if g.random.one_in(2) {
        [x, y]
    } else {
        [2.0 * from[0] - x, y]
    }
}

/// A z whose height over the pad is a limit, within a step or two: where the test of the height changes.
fn z_near(g: &mut Generator, o: &OpeningLine, most: f32, test: impl Fn(f32) -> bool) -> f32 {
    let pad = o.home[2];
    match o.kind {
        OpeningKind::Ground => -float::boundary(&mut g.random, 0.0, most, test),
        OpeningKind::Raised => float::boundary(&mut g.random, pad - most, pad, |z| test(pad - z)),
    }
}

/// Velocities of a speed, within a step or two.
fn speed_of(g: &mut Generator, speed: f32) -> [f32; 3] {
    let [x, y] = place_at(g, [0.0; 2], speed);
    [x, y, g.random.between(-1.0, 1.0)]
}

/// A dt with which a sum crosses a limit, or just does not.
fn dt_to(g: &mut Generator, sum: f32, limit: f32) -> f32 {
    float::boundary(&mut g.random, 0.0, limit + 1.0, |dt| sum + dt >= limit)
}

/// Something between two ticks that must not matter to counts.
fn between(g: &mut Generator) -> Step {
    match g.random.below(40) {
        0 => g.bytes(b"12"),
        1 => g.numbers(&[3, 0]),
        2 => g.numbers(&[5, 1, 0, 0, 0]),
        3 => g.numbers(&[4, 12, 0, 0]),
        4 => g.zones(&[]),
        5 => g.command(event::TOUCHDOWN),
        _ => Ok(()),
    }
}

fn takeoff_height(g: &mut Generator, o: OpeningLine) -> Step {
    enter(g, o, Mode::Takeoff)?;
    for _ in 0..4 {
        let mut tick = AWAY;
        let cruise = o.cruise;
        let z = z_near(g, &o, 50.0, |h| h > cruise - 0.2);
        tick.p = [o.home[0] + 3.0, o.home[1], z];
        let speed = g.random.pick(&[0.0, 0.3, 1.0]);
        tick.v = speed_of(g, speed);
        g.fly(&tick, false)?;
    }
    Ok(())
}

fn home_distances(g: &mut Generator) -> Step {
    let o = plain(g);
    let mode = g.random.pick(&[Mode::Rtl, Mode::Land]);
    enter(g, o, mode)?;
    for _ in 0..6 {
        let distance = g.random.pick(&[0.4, 0.5]);
        let [x, y] = place_at(g, [o.home[0], o.home[1]], distance);
        let speed = g.random.pick(&[0.0, 0.4, 0.4, 1.0]);
        let v = speed_of(g, speed);
        let failed = u32::from(g.random.one_in(8));
        g.fly(&TickLine { p: [x, y, o.z_at(5.0)], v, failed, ..AWAY }, false)?;
    }
    Ok(())
}

fn touchdown(g: &mut Generator) -> Step {
    let o = plain(g);
    enter(g, o, Mode::Land)?;
    for _ in 0..4 {
        let z = z_near(g, &o, 1.0, |h| h < 0.15);
        let x = g.random.pick(&[0.0, 0.2, 5.0]);
        g.fly(&TickLine { p: [o.home[0] + x, o.home[1], z], ..AWAY }, false)?;
    }
    Ok(())
}

/// Pads and cruise heights that are odd, opened by either kind, also while a report is due: the setpoint of every mode that has the cruise height, and
/// heights around the limits as either kind measures them.
fn odd_pads(g: &mut Generator) -> Step {
    if g.mode().is_airborne() && g.random.one_in(2) {
        g.tick(&AWAY)?;
    }
    let mut o = plain(g);
    o.kind = g.random.pick(&[OpeningKind::Raised, OpeningKind::Raised, OpeningKind::Raised, OpeningKind::Ground]);
    o.home[2] = match g.random.below(4) {
        0 => float::any(&mut g.random),
        1 => g.random.pick(&ODD_PADS),
        _ => roof(&mut g.random),
    };
    o.cruise = match g.random.below(6) {
        0 => float::any(&mut g.random),
        1 => g.random.pick(&[0.0, -0.0, 0.2, f32::MIN_POSITIVE, f32::NAN, f32::INFINITY, f32::NEG_INFINITY]),
        2 => o.home[2],
        _ => o.cruise,
    };
    let mode = g.random.pick(&[Mode::Takeoff, Mode::Loiter, Mode::Rtl, Mode::Land, Mode::Land]);
    enter(g, o, mode)?;
    let (pad, cruise) = (o.home[2], o.cruise);
    for _ in 0..4 {
        let limit = if g.mode() == Mode::Takeoff { cruise - 0.2 } else { 0.15 };
        let z = match g.random.below(5) {
            0 => float::any(&mut g.random),
            1 => -float::boundary(&mut g.random, -100.0, 100.0, |h| h > limit),
            _ => float::boundary(&mut g.random, pad - 100.0, pad + 100.0, |z| pad - z > limit),
        };
        let x = g.random.pick(&[0.0, 5.0]);
        let (failed, reported) = (u32::from(g.random.one_in(4)), g.random.one_in(10));
        g.fly(&TickLine { p: [o.home[0] + x, o.home[1], z], failed, ..AWAY }, reported)?;
    }
    Ok(())
}

fn legs(g: &mut Generator) -> Step {
    let o = plain(g);
    let count = g.random.pick(&[0, 1, 2, 3, 15, 16, 17]);
    let points: Vec<[f32; 3]> =
        (0..count).map(|k| [o.home[0] + (k % 7) as f32, o.home[1] + (k % 5) as f32, o.home[2] - 5.0 - (k % 3) as f32]).collect();
    enter(g, o, Mode::Mission)?;
    g.points(&points)?;
    for _ in 0..count + 2 {
        if g.mode() != Mode::Mission || g.shuttle.report_due() {
            break;
        }
        let [x, y, z] = g.supervisor().current_waypoint();
        let at = [y + g.random.between(-0.8, 0.8), z + g.random.between(-0.8, 0.8)];
        let at = if g.random.one_in(3) { [y, z] } else { at };
        let near = |x1: f32| {
            let (dx, dy, dz) = (x1 - x, at[0] - y, at[1] - z);
            (dx * dx + dy * dy + dz * dz).sqrt() < 1.2
        };
        let x1 = float::boundary(&mut g.random, x, x + 5.0, near);
        g.fly(&TickLine { p: [x1, at[0], at[1]], ..AWAY }, false)?;
        if g.random.one_in(10) {
            g.points(&points)?;
        }
        if g.random.one_in(20) {
            g.numbers(&[5, 1, 0, 0, 0])?;
        }
    }
    Ok(())
}

fn braking(g: &mut Generator) -> Step {
    let o = plain(g);
    let from = g.random.pick(&[Mode::Mission, Mode::Takeoff, Mode::Loiter]);
    enter(g, o, from)?;
    if from == Mode::Mission {
        g.fly(&TickLine { p: [o.home[0] + 20.0, o.home[1], o.z_at(10.0)], ..AWAY }, false)?;
        g.command(event::LOITER)?;
    }
    let speed = g.random.pick(&[0.3, 0.3, 1.0]);
    let mut v = speed_of(g, speed);
    let mut dt = g.random.pick(&[0.0, 0.5, 20.0, 29.0]);
    for _ in 0..4 + g.random.below(8) {
        let x = g.random.between(0.0, 20.0);
        let p = [o.home[0] + x, o.home[1], o.z_at(o.cruise + 1.0)];
        g.fly(&TickLine { dt, p, v, ..AWAY }, false)?;
        let (brake, rest) = (g.supervisor().brake_s, g.supervisor().brake_rest_s);
        let near_rest = g.random.pick(&[0.1, 0.1, 0.05, 0.5]);
        v = speed_of(g, near_rest);
        dt = match g.random.below(6) {
            0 => dt_to(g, brake, 30.0),
            1 | 2 => dt_to(g, rest, 3.0),
            3 => float::any(&mut g.random),
            _ => g.random.between(0.0, 1.5),
        };
        if g.random.one_in(8) {
            g.command(event::MISSION)?;
            if !g.random.one_in(3) {
                g.fly(&TickLine { p, v, ..AWAY }, false)?;
                v = speed_of(g, 1.0);
                dt = g.random.pick(&[0.5, 15.0, 29.0]);
            }
            g.command(event::LOITER)?;
        }
    }
    Ok(())
}

fn fence(g: &mut Generator) -> Step {
    let mut o = plain(g);
    o.required |= 1 << 20;
    o.passed = o.required;
    if g.random.one_in(6) {
        o.fence = g.random.pick(&[0.0, -0.0, -1.0, f32::INFINITY, f32::NAN, 1.0e30, f32::MIN_POSITIVE]);
    }
    if g.random.one_in(10) {
        let k = g.random.below(3) as usize;
        o.home[k] = g.random.pick(&[f32::NAN, f32::INFINITY, 1.0e20]);
    }
    let mode = g.random.pick(&[Mode::Disarmed, Mode::Takeoff, Mode::Loiter, Mode::Mission, Mode::Rtl, Mode::Land]);
    enter(g, o, mode)?;
    for _ in 0..5 {
        let [x, y] = place_at(g, [o.home[0], o.home[1]], o.fence);
        g.fly(&TickLine { p: [x, y, o.z_at(5.0)], ..AWAY }, false)?;
    }
    Ok(())
}

fn tilted(g: &mut Generator) -> Step {
    let o = plain(g);
    let mode = g.random.pick(&[Mode::Takeoff, Mode::Loiter, Mode::Mission, Mode::Rtl, Mode::Land]);
    enter(g, o, mode)?;
    let away = away(&o);
    if g.random.one_in(10) {
        for _ in 0..3 {
            g.tick(&TickLine { tilt: 1.06, ..away })?;
        }
    }
    let run = g.random.pick(&[49, 50, 51]);
    for _ in 0..run {
        let tilt = g.random.pick(&[1.05f32.next_up(), 1.05f32.next_up(), 1.06, 3.0, f32::INFINITY]);
        let p = [o.home[0] + 5.0, o.home[1], o.z_at(5.0)];
        g.fly(&TickLine { p, tilt, ..away }, false)?;
        between(g)?;
        if g.random.one_in(100) {
            let event = g.random.pick(&[event::RTL, event::LAND, event::FAILSAFE]);
            g.command(event)?;
        }
    }
    for _ in 0..2 {
        let tilt = g.random.pick(&[1.05, 1.05f32.next_up(), 1.05f32.next_down(), f32::NAN]);
        g.fly(&TickLine { p: [o.home[0] + 5.0, o.home[1], o.z_at(5.0)], tilt, ..away }, false)?;
    }
    Ok(())
}

fn windy(g: &mut Generator) -> Step {
    let o = plain(g);
    let mode = g.random.pick(&[Mode::Takeoff, Mode::Loiter, Mode::Mission, Mode::Rtl, Mode::Land]);
    enter(g, o, mode)?;
    let run = g.random.pick(&[124, 125, 126]);
    let p = [o.home[0] + 5.0, o.home[1], o.z_at(5.0)];
    let motors = [0.95, 0.95f32.next_up(), 1.0, f32::INFINITY];
    for _ in 0..run {
        let tilt = g.random.pick(&[0.3, 0.7, 0.5, 0.3f32.next_up(), 0.7f32.next_down()]);
        let motor = g.random.pick(&motors);
        g.fly(&TickLine { p, tilt, motor, ..AWAY }, false)?;
        between(g)?;
        if g.random.one_in(150) {
            down_and_up(g)?;
        }
    }
    for _ in 0..2 {
        let tilt = g.random.pick(&[0.3, 0.7, 0.3f32.next_down(), 0.7f32.next_up(), f32::NAN]);
        let motor = g.random.pick(&[0.95, 0.95, 0.95f32.next_down(), f32::NAN]);
        g.fly(&TickLine { p, tilt, motor, ..AWAY }, false)?;
    }
    Ok(())
}

/// Down and up again by commands alone.
fn down_and_up(g: &mut Generator) -> Step {
    for event in [event::RTL, event::LAND, event::TOUCHDOWN, event::ARM, event::TAKEOFF] {
        g.command(event)?;
    }
    Ok(())
}

/// Windy ticks in Rtl, and a flight after it by commands alone, in which the count runs on.
fn wind_runs_on(g: &mut Generator) -> Step {
    let o = plain(g);
    enter(g, o, Mode::Rtl)?;
    let windy = TickLine { p: [o.home[0] + 5.0, o.home[1], o.z_at(5.0)], tilt: 0.5, motor: 1.0, ..AWAY };
    for _ in 0..g.random.pick(&[123, 124, 125, 130]) {
        g.fly(&windy, false)?;
    }
    down_and_up(g)?;
    for _ in 0..3 {
        g.fly(&windy, false)?;
    }
    Ok(())
}

/// A breach, and by commands alone on to Armed, where a tick leaves the latch as it is; after one in Disarmed it is cleared.
fn latch_runs_on(g: &mut Generator) -> Step {
    let mut o = plain(g);
    o.required = 1 << 18;
    o.passed = o.required;
    enter(g, o, Mode::Takeoff)?;
    let away = away(&o);
    g.fly(&TickLine { p: [o.home[0] + 200.0, o.home[1], o.z_at(5.0)], ..away }, false)?;
    g.command(event::LAND)?;
    g.command(event::TOUCHDOWN)?;
    if g.random.one_in(3) {
        g.fly(&away, false)?;
    }
    g.command(event::ARM)?;
    g.fly(&away, false)?;
    g.command(event::TAKEOFF)?;
    g.fly(&away, false)
}

fn silence(g: &mut Generator) -> Step {
    let o = plain(g);
    let mode = g.random.pick(&[Mode::Takeoff, Mode::Loiter, Mode::Mission, Mode::Rtl, Mode::Armed]);
    enter(g, o, mode)?;
    let p = [o.home[0] + g.random.pick(&[5.0, 0.0]), o.home[1], o.z_at(5.0)];
    for _ in 0..3 + g.random.below(6) {
        let sum = g.supervisor().batt_missing_s;
        let dt = match g.random.below(4) {
            0 => float::any(&mut g.random),
            1 => g.random.between(-0.5, 0.9),
            _ => float::boundary(&mut g.random, -2.0, 3.0, |dt| sum + dt > 1.0),
        };
        let volts = g.random.one_in(4).then_some(24.0);
        g.fly(&TickLine { dt, p, volts, ..AWAY }, false)?;
    }
    Ok(())
}

/// The pack of an opening with these volts.
fn pack_of(low_volts: f32) -> BattConfig {
    let opening = Opening {
        kind: OpeningKind::Ground,
        home: [0.0; 3],
        fence: 100.0,
        cruise: 10.0,
        low_volts,
        required: 0,
        passed: 0,
        calibrated: false,
    };
    sheet::open(opening).batt_est.cfg
}

/// Volts of the pack at which a cell's fall below a limit, within a step or two.
fn volts_at(g: &mut Generator, least: f32, most: f32, limit: f32) -> f32 {
    let cells = g.pack().cells as f32;
    float::boundary(&mut g.random, least, most, |volts| volts / cells < limit)
}

fn volts_only(g: &mut Generator) -> Step {
    let mut o = plain(g);
    let critical_at_zero = float::boundary(&mut g.random, 0.0, 3.0, |low_volts| pack_of(low_volts).crit_v_cell_fallback < 0.0);
    o.low_volts =
        g.random.pick(&[21.0, 22.2, 21.3, FOR_FOUR_CELLS, critical_at_zero, critical_at_zero, 0.0, -1.0, 60.0, 60.5, 360.0, f32::NAN]);
    if g.random.one_in(2) {
        o.low_volts = g.random.between(18.0, 24.0);
    }
    o.required |= 1 << 4;
    enter(g, o, Mode::Takeoff)?;
    let away = away(&o);
    let (low, critical) = (g.pack().low_v_cell_fallback, g.pack().crit_v_cell_fallback);
    for _ in 0..4 + g.random.below(10) {
        let limit = g.random.pick(&[low, critical]);
        let volts = volts_at(g, -1.0, 70.0, limit);
        let estimator = g.supervisor().batt_est;
        let below = if limit == low { estimator.low.below_s } else { estimator.critical.below_s };
        let dt = match g.random.below(4) {
            0 => dt_to(g, below, 2.0),
            1 => g.random.pick(&[1.0f32, 1.0f32.next_up(), 1.0f32.next_down(), 0.5]),
            _ => g.random.between(0.3, 1.0),
        };
        g.fly(&TickLine { dt, volts: Some(volts), ..away }, false)?;
    }
    Ok(())
}

/// Volts alone at a threshold where the next answer shows it: a tick a second below, then one at the threshold for another second.
fn volts_shown(g: &mut Generator) -> Step {
    let mut o = plain(g);
    for _ in 0..4 {
        o.low_volts = g.low_volts(|g| g.random.between(18.0, 24.0));
        let mode = g.random.pick(&[Mode::Takeoff, Mode::Rtl]);
        enter(g, o, mode)?;
        let limit = if mode == Mode::Takeoff { g.pack().low_v_cell_fallback } else { g.pack().crit_v_cell_fallback };
        let tick = TickLine { dt: 1.0, p: [o.home[0] + 5.0, o.home[1], o.z_at(5.0)], ..AWAY };
        g.fly(&TickLine { volts: Some(1.0), ..tick }, false)?;
        let volts = volts_at(g, 0.0, 30.0, limit);
        g.fly(&TickLine { volts: Some(volts), ..tick }, false)?;
    }
    Ok(())
}

/// Volts at which the estimator's charge falls below a limit, within a step or two.
fn volts_for(g: &mut Generator, estimator: BatteryEstimator, dt: f32, amps: f32, limit: f32) -> f32 {
    float::boundary(&mut g.random, 0.0, 30.0, |volts| {
        let mut trial = estimator;
        trial.update(dt, volts, Some(amps)).soc < limit
    })
}

fn charge(g: &mut Generator) -> Step {
    let mut o = plain(g);
    o.required |= 1 << 13;
    enter(g, o, Mode::Takeoff)?;
    let away = away(&o);
    let spend = g.random.one_in(3);
    if spend {
        for _ in 0..20 + g.random.below(18) {
            g.fly(&TickLine { dt: 1.0, volts: Some(25.2), amps: Some(500.0), ..away }, false)?;
        }
    }
    for _ in 0..4 + g.random.below(10) {
        let estimator = g.supervisor().batt_est;
        let limit = g.random.pick(&[0.25, 0.25, 0.10, 0.10, 0.30]);
        let dt = match g.random.below(3) {
            0 => dt_to(g, estimator.low.below_s, 2.0),
            1 => dt_to(g, estimator.critical.below_s, 2.0),
            _ => g.random.between(0.2, 1.0),
        };
        let mut amps = g.random.pick(&[0.0, 3.0, 20.0, 60.0]);
        let mut volts = 25.2;
        if spend {
            amps = float::boundary(&mut g.random, 0.0, 500.0, |amps| {
                let mut trial = estimator;
                trial.update(dt, 25.2, Some(amps)).soc < limit
            });
        } else {
            volts = volts_for(g, estimator, dt, amps, limit);
        }
        g.fly(&TickLine { dt, volts: Some(volts), amps: Some(amps), ..away }, false)?;
        if g.random.one_in(8) {
            g.fly(&away, false)?;
        }
    }
    Ok(())
}

/// Charge at a limit where the next answer shows it: a tick a second below, then one at the limit for another second.
fn charge_shown(g: &mut Generator) -> Step {
    let mut o = plain(g);
    for _ in 0..4 {
        let (limit, mode) = g.random.pick(&[(0.25, Mode::Takeoff), (0.25, Mode::Loiter), (0.10, Mode::Rtl), (0.30, Mode::Disarmed)]);
        o.required = 1 << 13;
        o.passed = o.required;
        enter(g, o, mode)?;
        let p = [o.home[0] + 5.0, o.home[1], o.z_at(5.0)];
        let amps = g.random.pick(&[0.0, 0.0, 4.0, 33.0]);
        g.fly(&TickLine { dt: 1.0, p, volts: Some(19.5), amps: Some(amps), ..AWAY }, false)?;
        let amps = g.random.pick(&[amps, amps, 50.0]);
        let estimator = g.supervisor().batt_est;
        let volts = volts_for(g, estimator, 1.0, amps, limit);
        g.fly(&TickLine { dt: 1.0, p, volts: Some(volts), amps: Some(amps), ..AWAY }, false)?;
        g.fly(&TickLine { p, ..AWAY }, false)?;
    }
    Ok(())
}

/// The counted charge at a limit, shown in the same way.
fn spent(g: &mut Generator) -> Step {
    let mut o = plain(g);
    let (limit, mode) = g.random.pick(&[(0.25, Mode::Takeoff), (0.10, Mode::Rtl), (0.30, Mode::Armed), (0.0, Mode::Armed)]);
    o.required = 1 << 13;
    o.passed = o.required;
    enter(g, o, mode)?;
    let away = away(&o);
    let dt = g.random.between(0.9, 0.99);
    let full = TickLine { dt, volts: Some(25.2), amps: Some(g.random.between(380.0, 440.0)), ..away };
    while g.supervisor().batt_est.consumed_mah < 5000.0 * (1.0 - limit) - 124.0 {
        g.fly(&full, false)?;
    }
    for _ in 0..2 {
        g.fly(&TickLine { volts: Some(19.5), amps: Some(0.0), ..full }, false)?;
    }
    let estimator = g.supervisor().batt_est;
    let amps = float::boundary(&mut g.random, 0.0, 500.0, |amps| {
        let mut trial = estimator;
        trial.update(dt, 25.2, Some(amps)).soc < limit
    });
    g.fly(&TickLine { amps: Some(amps), ..full }, false)?;
    g.fly(&full, false)?;
    g.fly(&away, false)
}

/// Current steps around 5 A, and readings at the ends of every cut.
fn resistance(g: &mut Generator) -> Step {
    let mut o = plain(g);
    o.required |= 1 << 13;
    enter(g, o, Mode::Takeoff)?;
    let away = away(&o);
    let mut amps = 20.0;
    for _ in 0..4 + g.random.below(12) {
        let before = amps;
        amps = match g.random.below(4) {
            0 => float::boundary(&mut g.random, before, before + 20.0, |a| a - before > 5.0),
            1 => float::boundary(&mut g.random, before - 20.0, before, |a| a - before < -5.0),
            2 => g.random.pick(&[0.0, 500.0, 500.0f32.next_up(), 0.0f32.next_down(), 60.0, f32::NAN, f32::INFINITY]),
            _ => g.random.between(0.0, 120.0),
        };
        let volts = match g.random.below(3) {
            0 => g.random.pick(&[0.0, 60.0, 60.0f32.next_up(), 30.0, 25.5, -0.0, -1.0, f32::NAN, f32::INFINITY]),
            _ => g.random.between(19.5, 25.5),
        };
        let dt = g.random.between(0.0, 0.3);
        g.fly(&TickLine { dt, volts: Some(volts), amps: Some(amps), ..away }, false)?;
        let estimator = g.supervisor().batt_est;
        let volts = volts_for(g, estimator, 0.1, amps, 0.3);
        g.fly(&TickLine { dt: 0.1, volts: Some(volts), amps: Some(amps), ..away }, false)?;
        if g.random.one_in(6) {
            g.fly(&TickLine { volts: Some(24.0), ..away }, false)?;
        }
    }
    Ok(())
}

fn points(g: &mut Generator) -> Step {
    let o = plain(g);
    enter(g, o, Mode::Disarmed)?;
    for _ in 0..6 {
        let count = g.random.pick(&[1usize, 2, 15, 16, 17, 18, 42]);
        let sound = [o.home[0], o.home[1], o.home[2] - 10.0];
        let mut points = vec![sound; count];
        let at = match g.random.below(3) {
            0 => 0,
            1 => g.random.below(count as u64) as usize,
            _ => (14 + g.random.below(4) as usize).min(count - 1),
        };
        let (home, limit) = (o.home[2], g.random.pick(&[1.0, 120.0]));
        let z = float::boundary(&mut g.random, home - 200.0, home + 1.0, |z| home - z >= limit);
        let [x, y] = place_at(g, [o.home[0], o.home[1]], o.fence);
        points[at] = match g.random.below(4) {
            0 => [sound[0], sound[1], z],
            1 => [x, y, sound[2]],
            2 => [x, y, z],
            _ => [0, 1, 2].map(|_| float::any(&mut g.random)),
        };
        g.points(&points)?;
    }
    Ok(())
}

/// A fence without a limit, or nearly, and points at no finite place, or far away.
fn far_points(g: &mut Generator) -> Step {
    let mut o = plain(g);
    o.fence = g.random.pick(&[f32::INFINITY, f32::INFINITY, f32::MAX, 1.0e30]);
    enter(g, o, Mode::Disarmed)?;
    for _ in 0..6 {
        let mut point = [o.home[0], o.home[1], o.home[2] - 10.0];
        let k = g.random.below(3) as usize;
        point[k] = g.random.pick(&[f32::INFINITY, f32::NEG_INFINITY, f32::NAN, f32::MAX, 1.0e18]);
        g.points(&[point])?;
    }
    Ok(())
}

/// A zone whose test changes at a place along a line, for the last setpoint.
fn zones(g: &mut Generator) -> Step {
    let o = plain(g);
    let mode = g.random.pick(&[Mode::Takeoff, Mode::Loiter, Mode::Mission, Mode::Rtl, Mode::Land]);
    enter(g, o, mode)?;
    let p = [o.home[0] + g.random.between(-15.0, 15.0), o.home[1] + g.random.between(-15.0, 15.0), o.z_at(o.cruise + 1.0)];
    let p = match g.random.below(6) {
        0 => [o.home[0], o.home[1], p[2]],
        1 | 2 => [o.home[0] + g.random.between(-4.0, 4.0), o.home[1] + g.random.pick(&[0.0, 0.7, -1.3]), p[2]],
        _ => p,
    };
    g.fly(&TickLine { p, ..AWAY }, false)?;
    for _ in 0..8 {
        let count = g.random.pick(&[1usize, 1, 2, 8, 9]);
        let radius = g.random.pick(&[0.0, 0.5, 2.0, 5.0, -1.0]);
        let mut list = Vec::new();
        for _ in 0..count {
            let around = [p[0] + g.random.between(-9.0, 9.0), p[1] + g.random.between(-9.0, 9.0)];
            let y = g.random.pick(&[around[1], p[1]]);
            let setpoint = g.setpoint;
            let mut trial = g.supervisor().clone();
            trial.zone_count = 1;
            let acts = |x: f32| {
                let mut trial = trial.clone();
                trial.zones[0].center = [x, y, 0.0];
                trial.zones[0].radius = radius;
                trial.avoid(p, setpoint).map(f32::to_bits) != setpoint.map(f32::to_bits)
            };
            let (low, high) = (g.random.between(p[0] - 30.0, p[0]), g.random.between(p[0], p[0] + 30.0));
            let middle = g.random.between(p[0] - 1.0, p[0] + 1.0);
            let x = if g.random.one_in(2) {
                float::boundary(&mut g.random, low, middle, acts)
            } else {
                float::boundary(&mut g.random, middle, high, acts)
            };
            list.push([x, y, 0.0, radius]);
        }
        if g.random.one_in(8) {
            let k = g.random.below(4) as usize;
            list[0][k] = g.random.pick(&[f32::NAN, f32::INFINITY, f32::NEG_INFINITY, 1.0e30]);
        }
        if g.random.one_in(8) {
            list[0][0] = p[0];
            list[0][1] = p[1] + g.random.pick(&[0.0, 1.0e-3, 1.0e-4, 1.0e-30]);
        }
        g.zones(&list)?;
        g.fly(&TickLine { p, ..AWAY }, false)?;
        let q = [p[0] + g.random.between(-5.0, 5.0), p[1] + g.random.between(-5.0, 5.0), p[2]];
        if g.random.one_in(4) {
            let near = [0, 1].map(|_| g.random.pick(&[0.0, 5.0e-4, -1.0e-3, 1.5e-3, -2.0e-3]));
            let goal = g.setpoint;
            g.fly(&TickLine { p: [goal[0] + near[0], goal[1] + near[1], p[2]], ..AWAY }, false)?;
        }
        let q = if g.random.one_in(20) { [f32::NAN, q[1], q[2]] } else { q };
        g.fly(&TickLine { p: q, ..AWAY }, false)?;
        if !g.mode().is_airborne() {
            break;
        }
    }
    Ok(())
}

/// A goal about a millimetre away, the least distance that is divided by, and a zone beyond it whose safe ring begins about there.
fn goal_at_hand(g: &mut Generator) -> Step {
    enter(g, PLAIN, Mode::Takeoff)?;
    let at = |away: f32| TickLine { p: [-away, 0.0, -5.0], ..AWAY };
    g.fly(&at(0.0), false)?;
    for _ in 0..6 {
        let away = if g.random.one_in(2) { float::nudged(&mut g.random, 1.0e-3, 2) } else { g.random.between(0.8e-3, 1.3e-3) };
        let radius = g.random.pick(&[0.0, 0.5, 2.0]);
        let reach = (radius + 1.6) * g.random.between(0.95, 1.2);
        g.zones(&[[reach - away, 0.0, 0.0, radius]])?;
        g.fly(&at(away), false)?;
    }
    Ok(())
}

/// Masks, the flags and numbers that ticks judge, and Arm after each.
fn checks(g: &mut Generator) -> Step {
    let mut o = plain(g);
    o.required = match g.random.below(3) {
        0 => 1 << g.random.below(21) | 1 << g.random.below(21),
        1 => 0x1F_FFFF,
        _ => g.random.below(1 << 21) as u32,
    };
    o.passed = match g.random.below(3) {
        0 => 0,
        1 => 0x1F_FFFF,
        _ => g.random.below(1 << 21) as u32,
    };
    o.calibrated = g.random.below(2) as u32;
    if g.random.one_in(8) {
        o.fence = g.random.pick(&[0.0, -0.0, -1.0, f32::INFINITY, f32::NAN]);
    }
    g.open(o)?;
    for _ in 0..3 + g.random.below(5) {
        let uncertainty = float::boundary(&mut g.random, 0.0, 1.0, |u| u < 0.02);
        let flag = |g: &mut Generator| u32::from(g.random.one_in(5));
        let tick = TickLine {
            p: [o.home[0] + g.random.pick(&[0.0, 200.0]), o.home[1], o.z_at(0.0)],
            uncertainty,
            nav: flag(g),
            gnss: flag(g),
            failed: flag(g),
            rpm: u32::from(g.random.one_in(2)),
            volts: g.random.one_in(2).then_some(24.0),
            amps: g.random.one_in(2).then_some(1.0),
            ..AWAY
        };
        g.fly(&tick, false)?;
        let flags = [0, 1].map(|_| u32::from(!g.random.one_in(5)));
        g.numbers(&[4, event::ARM, flags[0], flags[1]])?;
    }
    Ok(())
}

/// Openings in which two checks fail that follow each other in the table's order.
fn order_of_checks(g: &mut Generator) -> Step {
    for _ in 0..8 {
        let k = g.random.below(CheckId::ALL.len() as u64 - 1) as usize;
        let [first, second] = [k, k + 1].map(|k| 1 << CheckId::ALL[k] as u32);
        g.open(OpeningLine { fence: -1.0, required: first | second, ..PLAIN })?;
        g.tick(&TickLine { uncertainty: 1.0, nav: 1, gnss: 1, failed: 1, ..AWAY })?;
        g.command(event::ARM)?;
    }
    Ok(())
}

/// Flights after each other, with and without a tick on the ground between them.
fn up_and_down(g: &mut Generator) -> Step {
    let o = plain(g);
    enter(g, o, Mode::Takeoff)?;
    let away = away(&o);
    let p = [o.home[0] + 5.0, o.home[1], o.z_at(5.0)];
    for _ in 0..6 {
        let outside = if g.random.one_in(4) { 200.0 } else { 0.0 };
        for _ in 0..1 + g.random.below(3) {
            g.fly(&TickLine { p: [p[0] + outside, p[1], p[2]], ..away }, false)?;
        }
        if g.random.one_in(2) {
            g.command(event::RTL)?;
            g.command(event::LAND)?;
            g.fly(&TickLine { p: [p[0], p[1], o.z_at(0.0)], ..away }, false)?;
        }
        for _ in 0..g.random.below(3) {
            g.fly(&TickLine { p: [p[0], p[1], o.z_at(0.0)], ..away }, false)?;
        }
        down_and_up(g)?;
        if g.mode() == Mode::Armed && g.random.one_in(2) {
            g.fly(&away, false)?;
        }
    }
    Ok(())
}

/// Times that are no plain seconds.
fn odd_times(g: &mut Generator) -> Step {
    let o = plain(g);
    let mode = g.random.pick(&[Mode::Takeoff, Mode::Loiter, Mode::Mission]);
    enter(g, o, mode)?;
    let away = away(&o);
    for _ in 0..6 {
        let dt = match g.random.below(3) {
            0 => float::any(&mut g.random),
            1 => g.random.pick(&[f32::NAN, f32::INFINITY, f32::NEG_INFINITY, -1.0, 1.0e30, 0.0, -0.0]),
            _ => g.random.between(0.0, 2.0),
        };
        let volts = g.random.one_in(2).then_some(19.5);
        let amps = g.random.one_in(2).then_some(40.0);
        let v = g.random.pick(&[[0.0; 3], [1.0, 0.0, 0.0]]);
        g.fly(&TickLine { dt, v, volts, amps, ..away }, false)?;
    }
    Ok(())
}

/// Every mode meets every event, by command, with the gates open or shut.
fn every_event(g: &mut Generator) -> Step {
    let modes = [Mode::Disarmed, Mode::Armed, Mode::Takeoff, Mode::Loiter, Mode::Mission, Mode::Land, Mode::Rtl, Mode::Terminated];
    for _ in 0..16 {
        let mode = g.random.pick(&modes);
        enter(g, PLAIN, mode)?;
        if g.random.one_in(3) {
            let failed = g.random.one_in(3);
            g.fly(&AWAY, failed)?;
        }
        let event = g.random.below(12) as u32;
        let flags = [0, 1].map(|_| u32::from(!g.random.one_in(4)));
        g.numbers(&[4, event, flags[0], flags[1]])?;
        let failed = g.random.one_in(3);
        g.fly(&AWAY, failed)?;
    }
    Ok(())
}

/// A pack that turns critical in Rtl or on the way there, high or low, near home or not.
fn critical_near_ground(g: &mut Generator) -> Step {
    let mut o = plain(g);
    o.low_volts = g.low_volts(|_| PLAIN.low_volts);
    let mode = g.random.pick(&[Mode::Takeoff, Mode::Loiter, Mode::Mission, Mode::Rtl, Mode::Land, Mode::Armed]);
    enter(g, o, mode)?;
    let x = g.random.pick(&[0.0, 0.39, 5.0, 200.0]);
    for _ in 0..5 {
        let z = g.random.pick(&[0.1, 0.1499, 0.15, 5.0, 20.0]);
        let p = [o.home[0] + x, o.home[1], o.z_at(z)];
        let volts = g.random.pick(&[19.95, 19.95, 20.85, 24.0]);
        let amps = g.random.one_in(3).then_some(2.0);
        let failed = g.random.one_in(8);
        g.fly(&TickLine { dt: 1.0, p, volts: Some(volts), amps, ..AWAY }, failed)?;
    }
    Ok(())
}
