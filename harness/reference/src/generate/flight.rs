//! The profile `flight`: plausible days, flown by simple kinematics towards the setpoints that the reference answers.

use super::{event, roof, Generator, OpeningLine, Step, TickLine};
use crate::falcon_core::OpeningKind;
use crate::relay_fsm::Mode;

/// What befalls a flight.
#[derive(Clone, Copy, PartialEq, Eq)]
enum Trouble {
    None,
    Wind,
    Tumble,
    Push,
    Silence,
    MotorOut,
}

/// The craft and its pack.
struct Craft {
    /// The z of the ground, or of the roof.
    ground: f32,
    p: [f32; 3],
    v: [f32; 3],
    dt: f32,
    /// 0..1
    charge: f32,
    /// Share of the charge that one ampere-second takes.
    drain: f32,
    sense: Sense,
    failed: bool,
    rpm: bool,
    trouble: Trouble,
    trouble_left: u64,
}

#[derive(Clone, Copy)]
enum Sense {
    None,
    Volts,
    Amps,
}

/// One day: an opening, a plan, and a few flights.
pub fn day(g: &mut Generator) -> Step {
    let home = if g.random.one_in(2) {
        [0.0; 3]
    } else {
        [g.random.between(-30.0, 30.0), g.random.between(-30.0, 30.0), g.random.between(-2.0, 1.0)]
    };
    let fence = g.random.pick(&[30.0, 60.0, 100.0, 250.0]);
    let required = match g.random.below(3) {
        0 => 0,
        1 => 0b1_1110_1010_0010_1111_1111 & !(1 << 4),
        _ => g.random.bits() as u32 & 0x1F_FFFF,
    };
    let passed = if g.random.one_in(5) { 0 } else { 0x1F_FFFF };
    let mut opening = OpeningLine {
        kind: OpeningKind::Ground,
        home,
        fence,
        cruise: g.random.pick(&[5.0, 8.0, 10.0, 12.5]),
        low_volts: g.low_volts(|g| g.random.pick(&[21.0, 21.3, 22.2])),
        required,
        passed,
        calibrated: u32::from(!g.random.one_in(6)),
    };
    let ground = pad(g, &mut opening);
    let home = opening.home;
    g.open(opening)?;
    let sense = match g.random.below(5) {
        0 => Sense::None,
        1 | 2 => Sense::Volts,
        _ => Sense::Amps,
    };
    let mut craft = Craft {
        ground,
        p: [home[0] + g.random.between(-0.3, 0.3), home[1] + g.random.between(-0.3, 0.3), ground],
        v: [0.0; 3],
        dt: g.random.pick(&[0.05, 0.1, 0.2, 0.25, 0.5]),
        charge: g.random.between(0.5, 1.0),
        drain: g.random.pick(&[1.0e-5, 5.0e-5, 2.0e-4]),
        sense,
        failed: false,
        rpm: !g.random.one_in(4),
        trouble: Trouble::None,
        trouble_left: 0,
    };
    plan(g, home, fence)?;
    // A shuttle that never touches down needs no second flight.
    let touches_down = opening.kind == OpeningKind::Raised || ground >= 0.0;
    let flights = if touches_down { 1 + g.random.below(3) } else { 1 };
    for _ in 0..flights {
        for _ in 0..1 + g.random.below(4) {
            step(g, &mut craft)?;
        }
        g.command(event::ARM)?;
        if g.mode() == Mode::Armed && g.random.one_in(6) {
            step(g, &mut craft)?;
        }
        g.command(event::TAKEOFF)?;
        flight(g, &mut craft, home, fence)?;
    }
    Ok(())
}

/// Where a day's ground is: at 0, or at the pad's z. Of 32 days ten have a raised pad on a roof (or below the yard), four one where home was drawn; one has
/// a roof opened by kind 1, over which altitude is reached at once and nothing touches down.
fn pad(g: &mut Generator, o: &mut OpeningLine) -> f32 {
    let Some(r) = &mut g.raised else { return 0.0 };
    let roof = roof(r);
    match r.below(32) {
        0..=9 => (o.kind, o.home[2]) = (OpeningKind::Raised, roof),
        10..=13 => o.kind = OpeningKind::Raised,
        14 => o.home[2] = roof,
        _ => return 0.0,
    }
    o.home[2]
}

/// Points within the fence, or now and then one outside; zones among them.
fn plan(g: &mut Generator, home: [f32; 3], fence: f32) -> Step {
    let reach = fence * 0.6;
    let most = if g.random.one_in(8) { 20 } else { 6 };
    let n = g.random.below(most);
    let mut points: Vec<[f32; 3]> = (0..n)
        .map(|_| {
            [home[0] + g.random.between(-reach, reach), home[1] + g.random.between(-reach, reach), home[2] - g.random.between(2.0, 20.0)]
        })
        .collect();
    if n > 0 && g.random.one_in(10) {
        let at = g.random.below(n) as usize;
        points[at][0] = home[0] + fence * 1.5;
    }
    g.points(&points)?;
    if g.random.one_in(2) {
        let n = 1 + g.random.below(4);
        let zones: Vec<[f32; 4]> = (0..n)
            .map(|_| {
                [home[0] + g.random.between(-reach, reach), home[1] + g.random.between(-reach, reach), 0.0, g.random.between(0.5, 5.0)]
            })
            .collect();
        g.zones(&zones)?;
    }
    Ok(())
}

fn flight(g: &mut Generator, craft: &mut Craft, home: [f32; 3], fence: f32) -> Step {
    let patience = 200 + g.random.below(500);
    for n in 0..patience {
        if !g.mode().is_airborne() {
            break;
        }
        if craft.trouble_left == 0 {
            craft.trouble = Trouble::None;
            if g.random.one_in(150) {
                let kinds = [Trouble::Wind, Trouble::Tumble, Trouble::Push, Trouble::Silence, Trouble::MotorOut];
                craft.trouble = g.random.pick(&kinds);
                craft.trouble_left = match craft.trouble {
                    Trouble::Wind => 100 + g.random.below(40),
                    Trouble::Tumble => 20 + g.random.below(40),
                    _ => 10 + g.random.below(60),
                };
            }
        } else {
            craft.trouble_left -= 1;
        }
        if n > 20 && craft.trouble != Trouble::Wind && g.random.one_in(40) {
            let events = [event::MISSION, event::MISSION, event::MISSION, event::LOITER, event::RTL, event::LAND];
            let event = match g.mode() {
                Mode::Loiter if !g.random.one_in(4) => event::MISSION,
                _ => g.random.pick(&events),
            };
            g.command(event)?;
        }
        if g.random.one_in(200) {
            plan(g, home, fence)?;
        }
        step(g, craft)?;
    }
    if g.random.one_in(3) && g.mode() != Mode::Terminated {
        g.command(event::LAND)?;
        for _ in 0..200 {
            if g.mode() != Mode::Land {
                break;
            }
            step(g, craft)?;
        }
    }
    Ok(())
}

/// One tick with its report, and the craft's motion through it.
fn step(g: &mut Generator, craft: &mut Craft) -> Step {
    let flying = g.mode().is_airborne();
    let mut tick = TickLine {
        dt: craft.dt,
        p: craft.p,
        v: craft.v,
        tilt: g.random.between(0.0, 0.25),
        uncertainty: if g.random.one_in(30) { 0.05 } else { g.random.between(0.0, 0.01) },
        motor: if flying { g.random.between(0.4, 0.8) } else { 0.0 },
        nav: u32::from(g.random.one_in(200)),
        gnss: u32::from(g.random.one_in(200)),
        failed: u32::from(craft.failed),
        rpm: u32::from(craft.rpm && !g.random.one_in(50)),
        ..TickLine::default()
    };
    match craft.trouble {
        Trouble::Wind => {
            tick.tilt = g.random.between(0.31, 0.69);
            tick.motor = g.random.between(0.951, 1.0);
            craft.v[0] += 0.2 * craft.dt;
        }
        Trouble::Tumble => tick.tilt = g.random.between(1.06, 2.0),
        Trouble::Push => craft.p[0] += 15.0 * craft.dt,
        Trouble::Silence | Trouble::MotorOut | Trouble::None => {}
    }
    let amps = if flying { g.random.between(12.0, 30.0) } else { 0.5 };
    if craft.trouble != Trouble::Silence {
        let volts = g.pack().cells as f32 * (3.45 + 0.75 * craft.charge) - 0.02 * amps;
        match craft.sense {
            Sense::None => {}
            Sense::Volts => tick.volts = Some(volts),
            Sense::Amps => (tick.volts, tick.amps) = (Some(volts), Some(amps)),
        }
    }
    craft.charge = (craft.charge - craft.drain * amps * craft.dt * 10.0).max(0.0);
    let breaks = craft.trouble == Trouble::MotorOut && g.random.one_in(10);
    let reported = breaks || (craft.failed && !g.random.one_in(20));
    g.fly(&tick, reported)?;
    if breaks && flying {
        craft.failed = !g.random.one_in(3);
    }
    craft.moves(g.mode().is_airborne(), g.setpoint, g.landing);
    Ok(())
}

impl Craft {
    fn moves(&mut self, flying: bool, setpoint: [f32; 3], landing: bool) {
        if !flying {
            self.v = [0.0; 3];
            self.p[2] = (self.p[2] + 3.0 * self.dt).min(self.ground);
            return;
        }
        for k in 0..3 {
            let limit = if k == 2 { 2.0 } else { 4.0 };
            let mut wanted = ((setpoint[k] - self.p[k]) * 0.7).clamp(-limit, limit);
            if k == 2 && landing {
                wanted = 1.5;
            }
            if !wanted.is_finite() {
                wanted = 0.0;
            }
            self.v[k] += (wanted - self.v[k]) * (2.0 * self.dt).min(1.0);
            self.p[k] += self.v[k] * self.dt;
        }
        self.p[2] = self.p[2].min(self.ground);
    }
}
