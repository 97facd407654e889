//! What supervisor.rs needs of the rest of falcon-core: `FlightBackend`, `NavState` and a stand-in `FlightCore` that hands over the
//! sheet's inputs and records what the supervisor says to it.

use crate::stand_ins::{relay_calib, relay_math, relay_offboard};
use crate::{relay_batt, relay_fsafe, relay_fsm, relay_preflight};

include!(concat!(env!("OUT_DIR"), "/mod_supervisor.rs"));
pub use supervisor::*;

pub type Vec3 = [f32; 3];

/// The methods of lib.rs's `FlightBackend` that supervisor.rs calls; `None` is their default there too.
pub trait FlightBackend {
    /// Control period (s) for this tick.
    fn dt(&self) -> f32;
    /// Battery voltage (V), or `None` when this backend has no battery sense.
    fn read_battery_v(&mut self) -> Option<f32> {
        None
    }
    /// Battery discharge current (A), or `None` when no current sensing exists.
    fn read_battery_i(&mut self) -> Option<f32> {
        None
    }
    /// Per-rotor reported RPM, or `None` if the ESCs report no RPM.
    fn read_motor_rpm(&mut self) -> Option<[i32; 4]> {
        None
    }
}

/// The estimator's output as far as supervisor.rs reads it; the tilt is the sheet's.
#[derive(Clone, Copy, Debug, Default)]
pub struct NavState {
    pub p: Vec3,
    pub v: Vec3,
    pub tilt: f32,
}

impl NavState {
    pub fn tilt_rad(&self) -> f32 {
        self.tilt
    }
}

/// What a tick of the sheet tells the core.
#[derive(Clone, Copy, Debug, Default)]
pub struct CoreInputs {
    pub nav: NavState,
    pub uncertainty: f32,
    pub motor: f32,
    pub nav_compromised: bool,
    pub gnss_diverged: bool,
    /// What `failed_motor` says up to `step`: the tick's flag.
    pub failed: bool,
    /// What `failed_motor` says after `step`: the report's flag.
    pub failed_after_step: bool,
}

/// What the supervisor told the core in a tick.
#[derive(Clone, Copy, Debug, Default)]
pub struct CoreOutputs {
    pub landing: bool,
    pub motors_off: bool,
    pub rearm: bool,
    pub setpoint: Vec3,
}

/// The one number of the cascade that supervisor.rs names; the sheet does not use it.
#[derive(Clone, Copy, Debug, Default)]
pub struct CascadePartition {
    pub hover_thrust: f32,
}

/// The stand-in core.
#[derive(Clone, Copy, Debug, Default)]
pub struct FlightCore {
    pub inputs: CoreInputs,
    pub outputs: CoreOutputs,
    pub casc: CascadePartition,
    stepped: bool,
}

impl FlightCore {
    pub fn new(hover_thrust: f32, _loop_hz: f32) -> Self {
        FlightCore { casc: CascadePartition { hover_thrust }, ..FlightCore::default() }
    }

    /// Make ready for a tick with these inputs.
    pub fn begin(&mut self, inputs: CoreInputs) {
        self.inputs = inputs;
        self.outputs = CoreOutputs::default();
        self.stepped = false;
    }

    pub fn state(&self) -> NavState {
        self.inputs.nav
    }

    pub fn tilt_uncertainty(&self) -> f32 {
        self.inputs.uncertainty
    }

    pub fn calibration(&self) -> relay_calib::CalParams {
        relay_calib::CalParams::identity()
    }

    pub fn set_calibration(&mut self, _calib: relay_calib::CalParams) {}

    pub fn nav_compromised(&self) -> bool {
        self.inputs.nav_compromised
    }

    pub fn gnss_diverged(&self) -> bool {
        self.inputs.gnss_diverged
    }

    pub fn failed_motor(&self) -> Option<usize> {
        let failed = if self.stepped { self.inputs.failed_after_step } else { self.inputs.failed };
        failed.then_some(0)
    }

    pub fn max_motor(&self) -> f32 {
        self.inputs.motor
    }

    pub fn set_landing(&mut self, on: bool) {
        self.outputs.landing = on;
    }

    pub fn set_position(&mut self, ned: Vec3) {
        self.outputs.setpoint = ned;
    }

    pub fn rearm_fdi(&mut self) {
        self.outputs.rearm = true;
    }

    pub fn step<B: FlightBackend>(&mut self, _b: &mut B) {
        self.stepped = true;
    }

    pub fn step_estimate_only<B: FlightBackend>(&mut self, _b: &mut B) {
        self.outputs.motors_off = true;
    }
}
