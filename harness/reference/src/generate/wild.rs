//! The profile `wild`: random bit patterns in every float, commands in any order, and damaged lines of every sort.

use super::{event, float, End, Generator, OpeningLine, Step, TickLine, ODD_PADS};
use crate::falcon_core::OpeningKind;
use crate::relay_fsm::Mode;

/// A float that is wild once in `n` times and else between two limits.
fn mixed(g: &mut Generator, n: u64, low: f32, high: f32) -> f32 {
    if g.random.one_in(n) {
        float::any(&mut g.random)
    } else {
        g.random.between(low, high)
    }
}

/// An opening and what follows it.
pub fn stretch(g: &mut Generator) -> Step {
    let wildness = g.random.pick(&[1, 2, 4, 20, 100]);
    if !g.random.one_in(8) {
        opening(g, wildness)?;
    }
    for _ in 0..5 + g.random.below(200) {
        if g.random.one_in(3) {
            urge(g)?;
        }
        match g.random.below(20) {
            0 => points(g, wildness)?,
            1 => zones(g, wildness)?,
            2..=4 => {
                let event = g.random.below(12) as u32;
                let event = if event == 11 && !g.random.one_in(8) { 10 } else { event };
                let flags = [0, 1].map(|_| u32::from(!g.random.one_in(6)));
                g.numbers(&[4, event, flags[0], flags[1]])?;
            }
            5 => {
                let flag = g.random.below(2) as u32;
                g.numbers(&[3, flag])?;
            }
            6 if g.random.one_in(if climbing(g.mode()) { 2 } else { 12 }) => run(g, wildness)?,
            _ => {
                let mut tick = tick(g, wildness);
                if g.mode() == Mode::Mission && g.random.one_in(4) {
                    let leg = g.supervisor().current_waypoint();
                    tick.p = leg.map(|x| x + g.random.between(-0.8, 0.8));
                }
                if let Some(home) = g.shuttle.supervisor().filter(|_| g.random.one_in(6)).map(|s| s.home) {
                    tick.p = [home[0] + g.random.between(-0.4, 0.4), home[1], tick.p[2]];
                    tick.v = tick.v.map(|v| v * 0.1);
                }
                let failed = g.random.one_in(10);
                if g.random.one_in(10) {
                    g.tick(&tick)?;
                } else {
                    g.fly(&tick, failed)?;
                }
            }
        }
        if g.mode() == Mode::Terminated && g.random.one_in(4) {
            break;
        }
    }
    Ok(())
}

/// A mode of rank 1 in the air.
fn climbing(mode: Mode) -> bool {
    matches!(mode, Mode::Takeoff | Mode::Loiter | Mode::Mission)
}

/// The same tick many times over, with fewer damaged lines between.
fn run(g: &mut Generator, wildness: u64) -> Step {
    let mut tick = tick(g, wildness);
    if let Some(home) = g.shuttle.supervisor().map(|s| s.home) {
        tick.p = [home[0] + 2.0, home[1], tick.p[2]];
    }
    match g.random.below(4) {
        0 => (tick.tilt, tick.volts, tick.dt) = (1.1, None, 0.0),
        1 => (tick.tilt, tick.motor, tick.volts, tick.dt) = (0.5, 1.0, None, 0.0),
        2 => (tick.volts, tick.amps, tick.dt) = (Some(25.2), Some(500.0), 1.0),
        _ => {
            let brake = TickLine { v: [1.0; 3], ..tick };
            g.fly(&brake, false)?;
            (tick.v, tick.dt, tick.tilt, tick.volts) = ([0.01; 3], 0.3, 0.0, Some(25.2));
        }
    }
    let damage = std::mem::replace(&mut g.damage_one_in, 200);
    for _ in 0..40 + g.random.below(100) {
        g.fly(&tick, false)?;
    }
    g.damage_one_in = damage;
    Ok(())
}

/// A command that leads on to flying.
fn urge(g: &mut Generator) -> Result<(), End> {
    let next = match g.mode() {
        Mode::Disarmed => event::ARM,
        Mode::Armed => event::TAKEOFF,
        Mode::Takeoff => event::REACHED_ALTITUDE,
        Mode::Loiter => event::MISSION,
        Mode::Mission => event::LOITER,
        Mode::Rtl | Mode::Land | Mode::Terminated => return Ok(()),
    };
    if g.shuttle.report_due() {
        let flag = u32::from(g.random.one_in(10));
        g.numbers(&[3, flag])?;
    }
    g.command(next)
}

fn opening(g: &mut Generator, wildness: u64) -> Step {
    let mask = |g: &mut Generator| match g.random.below(8) {
        0 => g.random.below(1 << 21) as u32,
        1 => 1 << g.random.below(21),
        2 => 0x1F_FFFF,
        _ => 0,
    };
    let mut line = OpeningLine {
        kind: OpeningKind::Ground,
        home: [0, 1, 2].map(|_| mixed(g, wildness, -5.0, 5.0)),
        fence: mixed(g, wildness, 5.0, 300.0),
        cruise: mixed(g, wildness, 2.0, 40.0),
        low_volts: g.low_volts(|g| mixed(g, wildness, 19.5, 22.5)),
        required: mask(g),
        passed: mask(g),
        calibrated: g.random.below(2) as u32,
    };
    pad(g, &mut line);
    g.open(line)
}

/// A third of the openings are of kind 10, every other one of these on a roof or at an odd height, of the others one in twelve.
fn pad(g: &mut Generator, o: &mut OpeningLine) {
    let Some(r) = &mut g.raised else { return };
    let raised = r.one_in(3);
    if raised {
        o.kind = OpeningKind::Raised;
    }
    if r.one_in(if raised { 2 } else { 12 }) {
        o.home[2] = if r.one_in(3) { r.pick(&ODD_PADS) } else { r.between(-60.0, 10.0) };
    }
}

fn tick(g: &mut Generator, wildness: u64) -> TickLine {
    let flag = |g: &mut Generator| u32::from(g.random.one_in(8));
    let low = g.random.pick(&[18.0, 22.5, 22.5]);
    let (volts, amps) = match g.random.below(3) {
        0 => (None, None),
        1 => (Some(mixed(g, wildness, low, 25.5)), None),
        _ => (Some(mixed(g, wildness, low, 25.5)), Some(mixed(g, wildness, 0.0, 200.0))),
    };
    let mut tick = TickLine {
        dt: mixed(g, wildness, 0.0, 1.5),
        p: [mixed(g, wildness, -20.0, 20.0), mixed(g, wildness, -20.0, 20.0), mixed(g, wildness, -30.0, 1.0)],
        v: [0, 1, 2].map(|_| mixed(g, wildness, -2.0, 2.0)),
        tilt: mixed(g, wildness, 0.0, 1.2),
        uncertainty: mixed(g, wildness, 0.0, 0.04),
        motor: mixed(g, wildness, 0.5, 1.2),
        nav: flag(g),
        gnss: flag(g),
        failed: flag(g),
        rpm: g.random.below(2) as u32,
        volts,
        amps,
    };
    if let Some(z) = g.lift() {
        tick.p[2] += z;
    }
    tick
}

fn points(g: &mut Generator, wildness: u64) -> Step {
    let n = match g.random.below(6) {
        0 => 0,
        1 => 15 + g.random.below(4),
        2 => g.random.below(43),
        _ => 1 + g.random.below(4),
    };
    let rare = wildness * (n + 1);
    let mut points: Vec<[f32; 3]> =
        (0..n).map(|_| [mixed(g, rare, -4.0, 4.0), mixed(g, rare, -4.0, 4.0), mixed(g, rare, -30.0, -6.0)]).collect();
    if let Some(z) = g.lift() {
        points.iter_mut().for_each(|point| point[2] += z);
    }
    g.points(&points)
}

fn zones(g: &mut Generator, wildness: u64) -> Step {
    let n = match g.random.below(6) {
        0 => 0,
        1 => 7 + g.random.below(3),
        2 => g.random.below(33),
        _ => 1 + g.random.below(4),
    };
    let zones: Vec<[f32; 4]> = (0..n)
        .map(|_| {
            [
                mixed(g, wildness, -30.0, 30.0),
                mixed(g, wildness, -30.0, 30.0),
                mixed(g, wildness, -30.0, 30.0),
                mixed(g, wildness, 0.0, 6.0),
            ]
        })
        .collect();
    g.zones(&zones)
}
