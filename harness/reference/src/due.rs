//! The tick and the report that is due after it, over the Rust's `step`, which has both in one: the supervisor is copied before the tick,
//! and a report with flag 1 runs the tick again from there.

use crate::falcon_core::FlightSupervisor;
use crate::sheet::Tick;

/// The supervisor before the tick, and the tick.
pub struct Due {
    before: FlightSupervisor,
    tick: Tick,
}

/// The tick, without a report; what is due after it unless it says motors off.
pub fn tick(supervisor: &mut FlightSupervisor, tick: Tick) -> Option<Due> {
    let before = supervisor.clone();
    run(supervisor, tick);
    (!supervisor.core().outputs.motors_off).then_some(Due { before, tick })
}

/// The report.
pub fn report(supervisor: &mut FlightSupervisor, due: Due, failed: bool) {
    if failed {
        let Due { before, mut tick } = due;
        *supervisor = before;
        tick.core.failed_after_step = true;
        run(supervisor, tick);
    }
}

/// One `step` with a tick's inputs.
fn run(supervisor: &mut FlightSupervisor, mut tick: Tick) {
    supervisor.core_mut().begin(tick.core);
    supervisor.step(&mut tick);
}
