//! `ticks` flies the day of crates/ticks as often as that does and prints the same sum: the Rust's `step` with no text, for timing.

use reference::falcon_core::{CoreInputs, FlightSupervisor, KeepoutZone, NavState, OpeningKind};
use reference::relay_fsm::Event;
use reference::sheet::{answer_bits, open, Opening, Tick};

/// The days of a run, and the ticks of each part of a day: in Takeoff and Loiter, in Mission, and on the way home.
const DAYS: u32 = 500;
const PART: u32 = 1_000;

/// Where the shuttle is, tick by tick.
const NORTH: [f32; 16] = [0.0, 1.5, 3.0, 4.5, 6.0, 7.5, 9.0, 10.5, 12.0, 13.5, 15.0, 16.5, 18.0, 19.5, 20.0, 2.0];
const EAST: [f32; 8] = [0.0, 0.5, 1.0, 6.5, 7.0, 7.5, -2.0, -1.0];

fn tick_at(i: u32) -> Tick {
    let p = [NORTH[(i % 16) as usize], EAST[(i / 16 % 8) as usize], -10.0];
    Tick {
        dt: 0.02,
        core: CoreInputs { nav: NavState { p, v: [0.5, -0.25, 0.0], tilt: 0.1 }, uncertainty: 0.01, motor: 0.6, ..CoreInputs::default() },
        rpm: true,
        volts: Some(22.8),
        amps: Some(12.0),
    }
}

/// The sum, which wraps, with the numbers of the ticks' answers.
fn fly(supervisor: &mut FlightSupervisor, mut sum: u32) -> u32 {
    for i in 0..PART {
        let mut tick = tick_at(i);
        supervisor.core_mut().begin(tick.core);
        supervisor.step(&mut tick);
        let outputs = &supervisor.core().outputs;
        if outputs.motors_off {
            sum = sum.wrapping_add(1);
            continue;
        }
        for x in outputs.setpoint {
            sum = sum.wrapping_add(answer_bits(x));
        }
        sum = sum.wrapping_add(2 * u32::from(outputs.landing) + 4 * u32::from(outputs.rearm));
    }
    sum
}

fn main() {
    let mut sum = 0;
    for _ in 0..DAYS {
        let mut supervisor = open(Opening {
            kind: OpeningKind::Ground,
            home: [0.0; 3],
            fence: 100.0,
            cruise: 10.0,
            low_volts: 21.0,
            required: 0,
            passed: 0,
            calibrated: true,
        });
        supervisor.set_mission_waypoints(&[[15.0, 1.0, -10.0], [0.0, 7.5, -10.0]]);
        supervisor.set_keepout_zones(&[KeepoutZone { center: [9.0, 3.0, 0.0], radius: 2.0 }]);
        supervisor.command(Event::Arm, true, true);
        supervisor.command(Event::RequestTakeoff, true, true);
        sum = fly(&mut supervisor, sum);
        supervisor.command(Event::RequestMission, true, true);
        sum = fly(&mut supervisor, sum);
        supervisor.command(Event::RequestRtl, true, true);
        sum = fly(&mut supervisor, sum);
    }
    println!("{sum}");
}
