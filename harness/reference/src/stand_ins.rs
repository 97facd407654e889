//! The smallest stand-ins for the crates that docs/src does not have.

/// The root: Rust's own, which is IEEE 754's.
pub mod relay_math {
    pub fn sqrtf(x: f32) -> f32 {
        x.sqrt()
    }
}

/// The calibration: all that the supervisor asks of one is whether it is valid.
pub mod relay_calib {
    #[derive(Clone, Copy, Debug)]
    pub struct CalParams {
        pub valid: bool,
    }

    impl CalParams {
        pub fn identity() -> Self {
            CalParams { valid: true }
        }

        pub fn is_valid(&self) -> bool {
            self.valid
        }
    }
}

/// The offboard receiver: Follow is left out, so it accepts nothing and is always stale.
pub mod relay_offboard {
    #[derive(Clone, Copy, Debug)]
    pub struct OffboardSetpoint {
        pub position_ned: [f32; 3],
    }

    impl OffboardSetpoint {
        pub fn position(position_ned: [f32; 3]) -> Self {
            OffboardSetpoint { position_ned }
        }
    }

    #[derive(Clone, Copy, Debug)]
    pub enum OffboardStatus {
        Active(OffboardSetpoint),
        Stale,
    }

    #[derive(Clone, Copy, Debug)]
    pub struct OffboardReceiver;

    impl OffboardReceiver {
        pub fn new(_timeout_us: u64) -> Self {
            OffboardReceiver
        }

        pub fn accept(&mut self, _sp: OffboardSetpoint, _counter: u64, _now_us: u64) -> bool {
            false
        }

        pub fn status(&self, _now_us: u64) -> OffboardStatus {
            OffboardStatus::Stale
        }
    }
}
