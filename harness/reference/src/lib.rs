//! The Rust supervisor behind document 01's sheet: the reference that the Rattle program is compared with.

pub mod sheet;
pub mod stand_ins;

#[cfg_attr(feature = "timed", path = "due_split.rs")]
mod due;

#[cfg(feature = "cover")]
pub mod cover;

// What `timed` needs nothing of.
#[cfg(not(feature = "timed"))]
pub mod bench;
#[cfg(not(feature = "timed"))]
pub mod cases;
#[cfg(not(feature = "timed"))]
pub mod compare;
#[cfg(not(feature = "timed"))]
pub mod generate;
#[cfg(not(feature = "timed"))]
pub mod random;
#[cfg(not(feature = "timed"))]
pub mod records;

include!(concat!(env!("OUT_DIR"), "/mod_relay_fsm.rs"));
include!(concat!(env!("OUT_DIR"), "/mod_relay_fsafe.rs"));
include!(concat!(env!("OUT_DIR"), "/mod_relay_batt.rs"));
include!(concat!(env!("OUT_DIR"), "/mod_relay_preflight.rs"));

pub mod falcon_core;
