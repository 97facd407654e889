//! What sorts of records were answered: the comparison and the figures ask for all of them.

use crate::falcon_core::OpeningKind;
use crate::generate::Profile;
use crate::sheet::{line_kind, NAN};
use std::fmt::{self, Display, Formatter};

/// The columns that have the point count, the zone count and the opening kind, counted from 0 (docs/RECORD.md counts from 1).
const POINT_COUNT: usize = 52;
const ZONE_COUNT: usize = 54;
const OPENING_KIND: usize = 135;

/// How many records, how many of them had points in use, zones in use, both, and a NaN, and how many were of a day opened by kind 1 and by kind 10.
#[derive(Clone, Default)]
pub struct RecordCounts {
    pub records: u64,
    pub points: u64,
    pub zones: u64,
    pub both: u64,
    pub nan: u64,
    pub ground: u64,
    pub raised: u64,
}

impl RecordCounts {
    /// One more record. No column but a float reaches 7FC00000 on any sheet: counts stay below the lines of it.
    pub fn count(&mut self, columns: &[u32]) {
        let in_use = |column: usize| columns.get(column).is_some_and(|&count| count > 0);
        self.records += 1;
        self.points += u64::from(in_use(POINT_COUNT));
        self.zones += u64::from(in_use(ZONE_COUNT));
        self.both += u64::from(in_use(POINT_COUNT) && in_use(ZONE_COUNT));
        self.nan += u64::from(columns.contains(&NAN));
        let opened_by = |kind| u64::from(columns.get(OPENING_KIND) == Some(&kind));
        self.ground += opened_by(line_kind(OpeningKind::Ground));
        self.raised += opened_by(line_kind(OpeningKind::Raised));
    }

    pub fn add(&mut self, other: &RecordCounts) {
        self.records += other.records;
        self.points += other.points;
        self.zones += other.zones;
        self.both += other.both;
        self.nan += other.nan;
        self.ground += other.ground;
        self.raised += other.raised;
    }

    /// Records of every sort were answered. The days of `flight` need have none with a NaN, the scenarios of `edge` none with both.
    pub fn has_all(&self, profile: Option<Profile>) -> bool {
        let nan = self.nan > 0 || profile == Some(Profile::Flight);
        let both = self.both > 0 || profile == Some(Profile::Edge);
        self.points > 0 && self.zones > 0 && nan && both && self.ground > 0 && self.raised > 0
    }
}

impl Display for RecordCounts {
    fn fmt(&self, f: &mut Formatter) -> fmt::Result {
        write!(
            f,
            "{}, with points {}, with zones {}, with both {}, with a NaN {}, opened by kind 1 {}, by kind 10 {}",
            self.records, self.points, self.zones, self.both, self.nan, self.ground, self.raised
        )
    }
}
