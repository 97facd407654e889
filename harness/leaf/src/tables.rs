//! The mode machine, the failsafe policy and the check table.

use crate::same;
use proved::UNKNOWN;
use reference::falcon_core::{FlightCore, FlightSupervisor};
use reference::random::Random;
use reference::relay_fsafe::{FailsafeAction, FailsafeArbiter, Triggers};
use reference::relay_fsm::{Event, FlightFsm, Gates, Mode};
use reference::relay_preflight::{arm_check_table, CheckId, CheckTable, TableVerdict, CHECK_COUNT};
use reference::sheet::EVENTS;

/// Numbers that stand for nothing, where there are `count` of a kind.
fn beyond(count: u32) -> [u32; 4] {
    [count, count + 1, 255, UNKNOWN]
}

fn gates(bits: u32) -> Gates {
    let bit = |i: u32| bits >> i & 1 == 1;
    Gates { level: bit(0), throttle_low: bit(1), have_position: bit(2), prearm_ok: bit(3) }
}

/// The Rust's machine in a mode: its field is private, so events lead there.
fn machine_in(mode: Mode) -> FlightFsm {
    let way: &[Event] = match mode {
        Mode::Disarmed => &[],
        Mode::Armed => &[Event::Arm],
        Mode::Takeoff => &[Event::Arm, Event::RequestTakeoff],
        Mode::Loiter => &[Event::Arm, Event::RequestTakeoff, Event::ReachedAltitude],
        Mode::Mission => &[Event::Arm, Event::RequestTakeoff, Event::ReachedAltitude, Event::RequestMission],
        Mode::Land => &[Event::Arm, Event::RequestTakeoff, Event::ReachedAltitude, Event::RequestLand],
        Mode::Rtl => &[Event::Arm, Event::RequestTakeoff, Event::RequestRtl],
        Mode::Terminated => &[Event::Terminate],
    };
    let mut fsm = FlightFsm::new();
    for &event in way {
        fsm.on(event, gates(15));
    }
    assert_eq!(fsm.mode(), mode);
    fsm
}

/// Every mode with every event and every gate, ranks, airborne.
pub fn modes() {
    let modes = [Mode::Disarmed, Mode::Armed, Mode::Takeoff, Mode::Loiter, Mode::Mission, Mode::Land, Mode::Rtl, Mode::Terminated];
    let mut triples = 0;
    for (m, mode) in modes.into_iter().enumerate() {
        let m = m as u32;
        for (e, event) in EVENTS.into_iter().enumerate() {
            for g in 0..16 {
                let mut fsm = machine_in(mode);
                let rust = fsm.on(event, gates(g));
                same("on", (m, e, g), proved::on(m, e as u32, g), rust as u32);
                triples += 1;
            }
        }
        for e in beyond(12) {
            same("on, no event", (m, e), proved::on(m, e, 15), UNKNOWN);
        }
        same("rank", m, proved::rank(m), FlightSupervisor::<FlightCore>::mode_rank(mode).into());
        same("is_airborne", m, proved::is_airborne(m), mode.is_airborne().into());
    }
    for m in beyond(8) {
        same("on, no mode", m, proved::on(m, 0, 15), UNKNOWN);
        same("rank, no mode", m, proved::rank(m), UNKNOWN);
        same("is_airborne, no mode", m, proved::is_airborne(m), UNKNOWN);
    }
    println!("leaf: mode machine: {triples} triples of mode, event and gates (all), {} ranks and airborne flags (all)", modes.len());
}

fn triggers(bits: u32) -> Triggers {
    let bit = |i: u32| bits >> i & 1 == 1;
    Triggers {
        rc_loss: bit(0),
        datalink_loss: bit(1),
        geofence_breach: bit(2),
        position_loss: bit(3),
        low_battery: bit(4),
        critical_battery: bit(5),
        offboard_stale: bit(6),
    }
}

/// The Rust's arbiter with an action latched: its field is private, so a trigger leads there.
fn arbiter_with(latched: FailsafeAction) -> Option<FailsafeArbiter> {
    let mut arbiter = FailsafeArbiter::new();
    let raised = (0..128).find(|&t| triggers(t).policy_action() == latched)?;
    arbiter.evaluate(triggers(raised));
    Some(arbiter)
}

/// Every set of triggers, by itself and over every action that can be latched.
pub fn policy() {
    let actions = [FailsafeAction::None, FailsafeAction::Hold, FailsafeAction::Rtl, FailsafeAction::Land, FailsafeAction::Terminate];
    for t in 0..128 {
        same("policy_action", t, proved::policy(t), triggers(t).policy_action().severity().into());
    }
    let mut latched = 0;
    for action in actions {
        let Some(arbiter) = arbiter_with(action) else { continue };
        latched += 1;
        for t in 0..128 {
            let rust = arbiter.clone().evaluate(triggers(t)).severity();
            same("evaluate", (action, t), proved::evaluate(action.severity().into(), t), rust.into());
        }
    }
    for n in beyond(5) {
        same("evaluate, no action", n, proved::evaluate(n, 127), UNKNOWN);
    }
    println!("leaf: policy: 128 sets of triggers (all), by themselves and over {latched} latched actions (no trigger latches Terminate)");
}

/// Both masks in one number, the required one in the upper half.
fn masks_of(t: &CheckTable) -> u64 {
    CheckId::ALL.into_iter().fold(0, |n, id| n | u64::from(t.is_required(id)) << (32 + id as u32) | u64::from(t.passed(id)) << id as u32)
}

/// One table: the count outstanding, the first blocker, and each check set and cleared.
fn table(supervisor: &mut FlightSupervisor, required: u32, passed: u32, ids: &[CheckId]) {
    supervisor.check_table = CheckTable::from_masks(required, passed);
    let rust = supervisor.prearm_failing_mask().count_ones();
    same("outstanding", (required, passed), proved::outstanding(required, passed), rust);
    let rust = match arm_check_table(&supervisor.check_table) {
        TableVerdict::Allowed => CHECK_COUNT as u32,
        TableVerdict::Blocked(id) => id as u32,
    };
    same("arm_check_table", (required, passed), proved::blocker(required, passed), rust);
    for &id in ids {
        for pass in [false, true] {
            let mut t = supervisor.check_table;
            t.set(id, pass);
            same("set", (required, passed, id, pass), proved::set(required, passed, id as u32, pass.into()), masks_of(&t));
        }
    }
}

/// Masks with no bit, one bit, all but one, all; and random ones. Masks are below 2^21, as an opening takes them.
pub fn checks(random: u64) {
    let all = (1u32 << CHECK_COUNT) - 1;
    let zero = [0.0; 3];
    let table_of = CheckTable::from_masks(0, 0);
    let mut supervisor = FlightSupervisor::with_core(FlightCore::default(), zero, 0.0, 0.0, 0.0, table_of);
    let single: Vec<u32> = (0..CHECK_COUNT).map(|i| 1 << i).chain([0]).flat_map(|m| [m, all & !m]).collect();
    for &required in &single {
        for &passed in &single {
            table(&mut supervisor, required, passed, &CheckId::ALL);
        }
    }
    let mut r = Random::new(1);
    for _ in 0..random {
        let (required, passed) = (r.bits() as u32 & all, r.bits() as u32 & all);
        let id = r.pick(&CheckId::ALL);
        table(&mut supervisor, required, passed, &[id]);
    }
    for id in beyond(CHECK_COUNT as u32) {
        same("set, no check", id, proved::set(5, 3, id, 1), 5 << 32 | 3);
    }
    for pass in [2, 3, 255, 256, 257, u32::MAX] {
        same("set, a flag above 1", pass, proved::set(5, 3, 1, pass), proved::set(5, 3, 1, 0));
    }
    println!("leaf: checks: {} pairs of masks of no, one, all but one and all bits, {random} random pairs", single.len() * single.len());
}
