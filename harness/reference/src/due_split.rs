//! The tick and the report that is due after it, over `step` as patches/timed splits it: no copy, nothing run again.

use crate::falcon_core::FlightSupervisor;
use crate::sheet::Tick;

/// The report needs nothing but the supervisor.
pub struct Due;

/// The tick, without a report; what is due after it unless it says motors off.
pub fn tick(supervisor: &mut FlightSupervisor, mut tick: Tick) -> Option<Due> {
    supervisor.core_mut().begin(tick.core);
    supervisor.tick(&mut tick);
    (!supervisor.core().outputs.motors_off).then_some(Due)
}

/// The report.
pub fn report(supervisor: &mut FlightSupervisor, _due: Due, failed: bool) {
    supervisor.core_mut().inputs.failed_after_step = failed;
    supervisor.report();
}
