//! Deterministic sheets for the comparison. The generator answers its own lines with the reference, so that it knows the mode, what is
//! due and the supervisor's counts, and can go on from there.

mod damage;
mod edge;
mod flight;
pub mod float;
mod wild;

use crate::falcon_core::{FlightSupervisor, OpeningKind};
use crate::random::Random;
use crate::relay_batt::BattConfig;
use crate::relay_fsm::Mode;
use crate::sheet::{line_kind, write_fields, Shuttle};
use std::fmt::{self, Display, Formatter};
use std::io::{self, Write};

/// Once in so many lines comes one of a megabyte or more, where they are asked for.
const LONG_ONE_IN: u64 = 20_000;
/// Make the draws of kinds 7 and 8 and of raised pads others than those of the days, and than each other's.
const TOTALS_SEED: u64 = 7 << 32;
const RECORDS_SEED: u64 = 8 << 32;
const RAISED_SEED: u64 = 10 << 32;
/// Before an opening a line of kind 8 comes once in so many times.
const RECORD_BEFORE_OPENING: u64 = 8;
/// An opening's low volts as they were for four cells. With six they are accepted too: 2.33 V a cell.
const FOR_FOUR_CELLS: f32 = 14.0;

/// Odd heights of a pad: zeros, no number, no finite one, and such that a position's last bits are lost beside them.
const ODD_PADS: [f32; 10] =
    [0.0, -0.0, f32::NAN, f32::INFINITY, f32::NEG_INFINITY, f32::MAX, -1.0e30, -3.0e7, f32::MIN_POSITIVE, 16777216.0];

/// A roof's z, or that of a pad below the yard.
fn roof(r: &mut Random) -> f32 {
    match r.below(4) {
        0 => -30.0,
        1 => r.between(1.0, 10.0),
        _ => r.between(-60.0, -2.0),
    }
}

/// The sort of sheet.
#[derive(Clone, Copy, Debug, PartialEq, Eq)]
pub enum Profile {
    /// Random bit patterns and damaged lines of every sort.
    Wild,
    /// Plausible days of flying.
    Flight,
    /// Values one step around every limit of the Rust, and counts around 50 and 125.
    Edge,
}

impl Profile {
    pub const ALL: [Profile; 3] = [Profile::Wild, Profile::Flight, Profile::Edge];

    pub fn of(name: &str) -> Option<Profile> {
        Profile::ALL.into_iter().find(|profile| profile.to_string() == name)
    }
}

impl Display for Profile {
    fn fmt(&self, f: &mut Formatter) -> fmt::Result {
        f.write_str(match self {
            Profile::Wild => "wild",
            Profile::Flight => "flight",
            Profile::Edge => "edge",
        })
    }
}

/// What stands among the lines of the days, which are the same with and without long lines and records.
#[derive(Clone, Copy, Debug)]
pub struct Among {
    /// Lines of a megabyte or more.
    pub long: bool,
    /// Lines of kind 8.
    pub records: bool,
    /// Lines of kind 10, and pads on roofs. Without them the days are those of the sheets from before there were any.
    pub raised: bool,
}

impl Among {
    /// What a sheet has unless it is said otherwise.
    pub const USUAL: Among = Among { long: false, records: true, raised: true };
}

/// Write a sheet of so many lines.
pub fn generate(profile: Profile, seed: u64, lines: usize, among: Among, out: &mut dyn Write) -> io::Result<()> {
    let mut g = Generator {
        long: among.long.then(|| Random::new(!seed)),
        totals: Random::new(seed ^ TOTALS_SEED),
        totals_one_in: match profile {
            Profile::Wild => 30,
            Profile::Flight => 300,
            Profile::Edge => 50,
        },
        records: among.records.then(|| Random::new(seed ^ RECORDS_SEED)),
        records_one_in: match profile {
            Profile::Wild => 150,
            Profile::Flight => 600,
            Profile::Edge => 150,
        },
        raised: among.raised.then(|| Random::new(seed ^ RAISED_SEED)),
        random: Random::new(seed),
        shuttle: Shuttle::new(),
        setpoint: [0.0; 3],
        landing: false,
        damage_one_in: if profile == Profile::Wild { 4 } else { 100 },
        left: lines,
        written: 0,
        buffer: Vec::new(),
        out,
    };
    let mut begun = false;
    let end = loop {
        let done = match profile {
            _ if !begun => before_opening(&mut g),
            Profile::Wild => wild::stretch(&mut g),
            Profile::Flight => flight::day(&mut g),
            Profile::Edge => edge::scenario(&mut g),
        };
        match done {
            Ok(()) => begun = true,
            Err(end) => break end,
        }
    };
    if let End::Failed(e) = end {
        return Err(e);
    }
    let Generator { buffer, out, .. } = g;
    out.write_all(&buffer)?;
    out.flush()
}

/// Calls with no opening yet.
fn before_opening(g: &mut Generator) -> Step {
    g.numbers(&[3, 0])?;
    g.tick(&TickLine::default())?;
    g.command(event::ARM)?;
    g.points(&[])?;
    g.zones(&[])?;
    g.line(b"          7")?;
    if g.records.is_some() {
        g.line(b"          8")?;
    }
    for _ in 0..6 {
        g.refused_opening(&OpeningLine::PLAIN)?;
    }
    g.bytes(b"12")
}

/// Why the generator stops: enough lines, or the output failed.
pub(crate) enum End {
    Enough,
    Failed(io::Error),
}

pub(crate) type Step = Result<(), End>;

pub(crate) struct Generator<'a> {
    pub random: Random,
    pub shuttle: Shuttle,
    /// The setpoint and the landing flag of the last flying tick.
    pub setpoint: [f32; 3],
    pub landing: bool,
    damage_one_in: u64,
    /// Draws the lines of a megabyte or more, by itself, so that the other lines are the same with and without them.
    long: Option<Random>,
    /// Draws the lines of kind 7, by itself: they change nothing, so the days around them stay as they are.
    totals: Random,
    /// Once in so many lines comes one of kind 7; while a report is due, which refuses it, a quarter as often.
    totals_one_in: u64,
    /// Draws the lines of kind 8 in the same way, where there are any.
    records: Option<Random>,
    /// Once in so many lines comes one of kind 8; while a report is due, which refuses it, a quarter as often.
    records_one_in: u64,
    /// Draws which pads are raised and where they are, where there are any.
    raised: Option<Random>,
    left: usize,
    written: usize,
    buffer: Vec<u8>,
    out: &'a mut dyn Write,
}

/// Events by their numbers.
pub(crate) mod event {
    pub const ARM: u32 = 0;
    pub const TAKEOFF: u32 = 1;
    pub const MISSION: u32 = 2;
    pub const LOITER: u32 = 3;
    pub const RTL: u32 = 4;
    pub const LAND: u32 = 5;
    pub const REACHED_ALTITUDE: u32 = 7;
    pub const TOUCHDOWN: u32 = 9;
    pub const FAILSAFE: u32 = 10;
}

/// An opening's numbers; the floats by value.
#[derive(Clone, Copy)]
pub(crate) struct OpeningLine {
    pub kind: OpeningKind,
    pub home: [f32; 3],
    pub fence: f32,
    pub cruise: f32,
    pub low_volts: f32,
    pub required: u32,
    pub passed: u32,
    pub calibrated: u32,
}

impl OpeningLine {
    pub const PLAIN: OpeningLine = OpeningLine {
        kind: OpeningKind::Ground,
        home: [0.0; 3],
        fence: 100.0,
        cruise: 10.0,
        low_volts: 21.0,
        required: 0,
        passed: 0,
        calibrated: 0,
    };

    /// The z that is so high over the pad, as the opening measures it.
    pub fn z_at(&self, height: f32) -> f32 {
        match self.kind {
            OpeningKind::Ground => 0.0 - height,
            OpeningKind::Raised => self.home[2] - height,
        }
    }

    fn numbers(&self) -> [u32; 10] {
        let [x, y, z] = self.home.map(f32::to_bits);
        let [fence, cruise, low] = [self.fence, self.cruise, self.low_volts].map(f32::to_bits);
        [line_kind(self.kind), x, y, z, fence, cruise, low, self.required, self.passed, self.calibrated]
    }
}

/// A tick's numbers; the floats by value.
#[derive(Clone, Copy, Default)]
pub(crate) struct TickLine {
    pub dt: f32,
    pub p: [f32; 3],
    pub v: [f32; 3],
    pub tilt: f32,
    pub uncertainty: f32,
    pub motor: f32,
    pub nav: u32,
    pub gnss: u32,
    pub failed: u32,
    pub rpm: u32,
    pub volts: Option<f32>,
    pub amps: Option<f32>,
}

impl TickLine {
    fn numbers(&self) -> [u32; 18] {
        let [px, py, pz] = self.p.map(f32::to_bits);
        let [vx, vy, vz] = self.v.map(f32::to_bits);
        let (battery, volts, amps) = match (self.volts, self.amps) {
            (None, _) => (0, 0, 0),
            (Some(v), None) => (1, v.to_bits(), 0),
            (Some(v), Some(a)) => (2, v.to_bits(), a.to_bits()),
        };
        [
            2,
            self.dt.to_bits(),
            px,
            py,
            pz,
            vx,
            vy,
            vz,
            self.tilt.to_bits(),
            self.uncertainty.to_bits(),
            self.motor.to_bits(),
            self.nav,
            self.gnss,
            self.failed,
            self.rpm,
            battery,
            volts,
            amps,
        ]
    }
}

impl Generator<'_> {
    /// Write a line of a day.
    pub fn bytes(&mut self, line: &[u8]) -> Step {
        self.written += 1;
        self.line(line)
    }

    /// Write a line and take its answer.
    fn line(&mut self, line: &[u8]) -> Step {
        if self.left == 0 {
            return Err(End::Enough);
        }
        self.left -= 1;
        let answer = self.shuttle.answer(line);
        if answer[0] == 0 && self.shuttle.report_due() {
            self.setpoint = [answer[5], answer[6], answer[7]].map(f32::from_bits);
            self.landing = answer[2] == 1;
        }
        self.buffer.extend_from_slice(line);
        self.buffer.push(b'\n');
        if self.buffer.len() > 1 << 16 {
            self.out.write_all(&self.buffer).map_err(End::Failed)?;
            self.buffer.clear();
        }
        Ok(())
    }

    /// Write a line of numbers; now and then a damaged line or one of kind 7 or 8 before it.
    pub fn numbers(&mut self, numbers: &[u32]) -> Step {
        let rarer = if self.shuttle.report_due() { 4 } else { 1 };
        if self.totals.one_in(self.totals_one_in * rarer) {
            self.totals()?;
        }
        self.record_one_in(self.records_one_in * rarer)?;
        let mut line = Vec::with_capacity(numbers.len() * 11);
        write_fields(&mut line, numbers);
        if self.random.one_in(self.damage_one_in) {
            let damaged = damage::damaged(&mut self.random, numbers, &line, self.raised.is_some());
            self.bytes(&damaged)?;
        }
        if let Some(long) = self.long.as_mut().and_then(|r| r.one_in(LONG_ONE_IN).then(|| damage::megabytes(r, &line))) {
            self.bytes(&long)?;
        }
        self.bytes(&line)
    }

    /// A line of kind 7, damaged as often as others are.
    fn totals(&mut self) -> Step {
        let line = damage::asked_alone(&mut self.totals, 7, self.damage_one_in);
        self.line(&line)
    }

    /// Once in so many times a line of kind 8, damaged as often as others are.
    fn record_one_in(&mut self, n: u64) -> Step {
        let damage_one_in = self.damage_one_in;
        let line = self.records.as_mut().and_then(|r| r.one_in(n).then(|| damage::asked_alone(r, 8, damage_one_in)));
        line.map_or(Ok(()), |line| self.line(&line))
    }

    /// An opening, every other time behind a line of kind 7: it sets the totals to zero. Behind one of kind 8 too, which has what the day left.
    pub fn open(&mut self, o: OpeningLine) -> Step {
        if self.totals.one_in(2) {
            self.totals()?;
        }
        self.record_one_in(RECORD_BEFORE_OPENING)?;
        if o.kind == OpeningKind::Raised && self.raised_one_in(8) {
            self.refused_opening(&o)?;
        }
        self.numbers(&o.numbers())
    }

    /// A line of kind 10 that is refused, where there are any.
    fn refused_opening(&mut self, o: &OpeningLine) -> Step {
        let line = self.raised.as_mut().map(|r| damage::refused_opening(r, &OpeningLine { kind: OpeningKind::Raised, ..*o }.numbers()));
        line.map_or(Ok(()), |line| self.line(&line))
    }

    /// Home's z, every other time, where the opening is of kind 10: what is drawn as above 0 is then above the pad.
    pub fn lift(&mut self) -> Option<f32> {
        let s = self.shuttle.supervisor()?;
        let (kind, z) = (s.opening_kind, s.home[2]);
        (kind == OpeningKind::Raised && z.is_finite() && self.raised_one_in(2)).then_some(z)
    }

    /// Once in so many times, where pads are raised.
    pub fn raised_one_in(&mut self, n: u64) -> bool {
        self.raised.as_mut().is_some_and(|r| r.one_in(n))
    }

    pub fn tick(&mut self, tick: &TickLine) -> Step {
        self.numbers(&tick.numbers())
    }

    /// A tick, and after it the report that is due, with this flag; once in 50 times a tick too early.
    pub fn fly(&mut self, tick: &TickLine, failed: bool) -> Step {
        self.tick(tick)?;
        if self.shuttle.report_due() {
            if self.random.one_in(50) {
                self.tick(tick)?;
            }
            self.numbers(&[3, u32::from(failed)])?;
        }
        Ok(())
    }

    pub fn command(&mut self, event: u32) -> Step {
        self.numbers(&[4, event, 1, 1])
    }

    pub fn points(&mut self, points: &[[f32; 3]]) -> Step {
        let mut numbers = vec![5, points.len() as u32];
        numbers.extend(points.iter().flatten().map(|x| x.to_bits()));
        self.numbers(&numbers)
    }

    pub fn zones(&mut self, zones: &[[f32; 4]]) -> Step {
        let mut numbers = vec![6, zones.len() as u32];
        numbers.extend(zones.iter().flatten().map(|x| x.to_bits()));
        self.numbers(&numbers)
    }

    /// Lines of the days so far, those of kinds 7 and 8 left out.
    pub fn written(&self) -> usize {
        self.written
    }

    pub fn mode(&self) -> Mode {
        self.shuttle.mode().unwrap_or(Mode::Disarmed)
    }

    /// The supervisor; only after an opening.
    pub fn supervisor(&self) -> &FlightSupervisor {
        self.shuttle.supervisor().expect("opened")
    }

    /// Low volts that `draw` gives, or once in ten times those for four cells.
    fn low_volts(&mut self, draw: impl FnOnce(&mut Self) -> f32) -> f32 {
        if self.random.one_in(10) {
            FOR_FOUR_CELLS
        } else {
            draw(self)
        }
    }

    /// The pack, with the cell count and the opening's thresholds; only after an opening.
    pub fn pack(&self) -> BattConfig {
        self.supervisor().batt_est.cfg
    }
}
