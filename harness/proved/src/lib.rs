//! The proved functions of crates/exports: numbers and slices of numbers, a float as its bits. A flag is 1 where it is true; 0 is answered where it is false, and
//! any number but 1 is read so.

/// The numbers that a battery is: the pack 0..7, the estimator 8..16, what is shown 17..25, the silence and two flags 26..28. A slice may have more, which stay
/// as they are.
pub const BATTERY_SIZE: usize = 29;

/// The answer where a number stands for nothing.
pub const UNKNOWN: u32 = u32::MAX;

mod linked {
    extern "C" {
        pub fn bartsemmo_sqrtf(b: u32) -> u32;
        pub fn bartsemmo_max(x: u32, y: u32) -> u32;
        pub fn bartsemmo_clamp(x: u32, lo: u32, hi: u32) -> u32;
        pub fn bartsemmo_sanitize(x: u32, lo: u32, hi: u32, d: u32) -> u32;
        pub fn bartsemmo_ocv_soc_cell(v: u32) -> u32;
        pub fn bartsemmo_on(mode: u32, event: u32, gates: u32) -> u32;
        pub fn bartsemmo_rank(mode: u32) -> u32;
        pub fn bartsemmo_is_airborne(mode: u32) -> u32;
        pub fn bartsemmo_policy(triggers: u32) -> u32;
        pub fn bartsemmo_evaluate(latched: u32, triggers: u32) -> u32;
        pub fn bartsemmo_set(required: u32, passed: u32, id: u32, pass: u32) -> u64;
        pub fn bartsemmo_outstanding(required: u32, passed: u32) -> u32;
        pub fn bartsemmo_blocker(required: u32, passed: u32) -> u32;
        pub fn bartsemmo_battery_new(numbers: *mut u32, length: usize) -> u32;
        pub fn bartsemmo_battery_opened(numbers: *mut u32, length: usize, cells: u32, volts: u32) -> u32;
        pub fn bartsemmo_battery_update(numbers: *mut u32, length: usize, dt: u32, kind: u32, volts: u32, amps: u32) -> u32;
        /// `bartsemmo_sqrtf` of another tree.
        #[cfg(feature = "before")]
        pub fn before_sqrtf(b: u32) -> u32;
    }
}

/// A safe function over each that takes numbers alone.
macro_rules! safe {
    ($($name:ident = $linked:ident ($($arg:ident: $type:ty),*) -> $result:ty;)*) => {
        $(
            #[inline]
            pub fn $name($($arg: $type),*) -> $result {
                // SAFETY: total, takes and gives numbers, reads no memory.
                unsafe { linked::$linked($($arg),*) }
            }
        )*
    };
}

safe! {
    sqrtf = bartsemmo_sqrtf(b: u32) -> u32;
    max = bartsemmo_max(x: u32, y: u32) -> u32;
    clamp = bartsemmo_clamp(x: u32, lo: u32, hi: u32) -> u32;
    sanitize = bartsemmo_sanitize(x: u32, lo: u32, hi: u32, d: u32) -> u32;
    ocv_soc_cell = bartsemmo_ocv_soc_cell(v: u32) -> u32;
    on = bartsemmo_on(mode: u32, event: u32, gates: u32) -> u32;
    rank = bartsemmo_rank(mode: u32) -> u32;
    is_airborne = bartsemmo_is_airborne(mode: u32) -> u32;
    policy = bartsemmo_policy(triggers: u32) -> u32;
    evaluate = bartsemmo_evaluate(latched: u32, triggers: u32) -> u32;
    set = bartsemmo_set(required: u32, passed: u32, id: u32, pass: u32) -> u64;
    outstanding = bartsemmo_outstanding(required: u32, passed: u32) -> u32;
    blocker = bartsemmo_blocker(required: u32, passed: u32) -> u32;
}

#[cfg(feature = "before")]
safe! {
    before = before_sqrtf(b: u32) -> u32;
}

/// `Battery::new` for the pack of the first eight numbers; 0, or 1 where the slice has under 29 numbers, which are then as they were.
pub fn battery_new(numbers: &mut [u32]) -> u32 {
    // SAFETY: total, and touches the slice alone.
    unsafe { linked::bartsemmo_battery_new(numbers.as_mut_ptr(), numbers.len()) }
}

/// `Battery::new` for the built-in pack with so many cells, at an opening's volts; 0, or 1 where the slice has under 29 numbers, which are then as they were.
pub fn battery_opened(numbers: &mut [u32], cells: u32, volts: u32) -> u32 {
    // SAFETY: total, and touches the slice alone.
    unsafe { linked::bartsemmo_battery_opened(numbers.as_mut_ptr(), numbers.len(), cells, volts) }
}

/// `Battery::update`, with a reading of kind 0 nothing, 1 volts, any other volts and amps; 0, or 1 where the slice has under 29 numbers, which are then as they were.
pub fn battery_update(numbers: &mut [u32], dt: u32, kind: u32, volts: u32, amps: u32) -> u32 {
    // SAFETY: total, and touches the slice alone.
    unsafe { linked::bartsemmo_battery_update(numbers.as_mut_ptr(), numbers.len(), dt, kind, volts, amps) }
}
