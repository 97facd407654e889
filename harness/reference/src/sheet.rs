//! Document 01's sheet over the Rust supervisor: lines to calls, calls to answers.

use crate::due::{report, tick, Due};
use crate::falcon_core::{
    CoreInputs, CoreOutputs, FlightBackend, FlightCore, FlightSupervisor, HoldRegime, KeepoutZone, NavState, OpeningKind,
};
use crate::relay_fsm::{Event, Mode};
use crate::relay_preflight::{CheckId, CheckTable};
use crate::stand_ins::relay_calib::CalParams;
use std::io::{self, Read, Write};
use std::ops::Deref;

/// Bytes of a field.
pub const WIDTH: usize = 11;
/// Fields of the longest line.
pub const MAX_FIELDS: usize = 130;
/// Fields of an answer.
pub const ANSWER_FIELDS: usize = 10;
/// Day totals: ticks by the mode they ended in, and changes of mode.
pub const TOTALS: usize = 9;
/// Fields of the answer to an accepted line of kind 7: the totals stand behind the ordinary fields.
pub const TOTALS_ANSWER: usize = ANSWER_FIELDS + TOTALS;
/// Places of a record for points, of three columns each, and for zones, of four: the record's own, whatever the Rust has room for.
const POINT_PLACES: usize = 16;
const ZONE_PLACES: usize = 8;
/// Columns of a record, which are those of a line of kind 9 (docs/RECORD.md): 55 before the first point, and the opening kind behind the last zone.
pub const RECORD: usize = 55 + 3 * POINT_PLACES + 4 * ZONE_PLACES + 1;
/// Fields of the widest answer: an accepted line of kind 8 has the record behind the ordinary fields.
pub const WIDEST_ANSWER: usize = ANSWER_FIELDS + RECORD;
/// Every NaN of an answer.
pub const NAN: u32 = 0x7FC0_0000;
/// The first blocker where none is.
pub const NO_BLOCKER: u32 = 21;

/// The names of the modes by their numbers.
pub const MODES: [&str; 8] = ["Disarmed", "Armed", "Takeoff", "Loiter", "Mission", "Land", "Rtl", "Terminated"];

/// The events by their numbers.
pub const EVENTS: [Event; 12] = [
    Event::Arm,
    Event::RequestTakeoff,
    Event::RequestMission,
    Event::RequestLoiter,
    Event::RequestRtl,
    Event::RequestLand,
    Event::RequestDisarm,
    Event::ReachedAltitude,
    Event::ReachedHome,
    Event::Touchdown,
    Event::Failsafe,
    Event::Terminate,
];

/// Kinds 1 and 10.
#[derive(Clone, Copy, Debug)]
pub struct Opening {
    pub kind: OpeningKind,
    pub home: [f32; 3],
    pub fence: f32,
    pub cruise: f32,
    pub low_volts: f32,
    pub required: u32,
    pub passed: u32,
    pub calibrated: bool,
}

/// Kind 2.
#[derive(Clone, Copy, Debug)]
pub struct Tick {
    pub dt: f32,
    pub core: CoreInputs,
    pub rpm: bool,
    pub volts: Option<f32>,
    pub amps: Option<f32>,
}

/// What a sheet line asks.
#[derive(Clone, Debug)]
pub enum Call<'a> {
    Opening(Opening),
    Tick(Tick),
    Report {
        failed: bool,
    },
    Command {
        event: Event,
        level: bool,
        throttle_low: bool,
    },
    /// Three numbers each.
    Points(&'a [u32]),
    /// Four numbers each.
    Zones(&'a [u32]),
    Totals,
    Record,
}

/// An answer's numbers. The record's are not in a box: `timed` allocates for no line.
#[derive(Clone, Copy, Debug)]
#[allow(clippy::large_enum_variant)]
pub enum Answer {
    Ordinary([u32; ANSWER_FIELDS]),
    /// With the day totals.
    Totals([u32; TOTALS_ANSWER]),
    /// With the record.
    Record([u32; WIDEST_ANSWER]),
}

impl Deref for Answer {
    type Target = [u32];

    fn deref(&self) -> &[u32] {
        match self {
            Answer::Ordinary(numbers) => numbers,
            Answer::Totals(numbers) => numbers,
            Answer::Record(numbers) => numbers,
        }
    }
}

/// One field: spaces, then a decimal number below 2^32 without leading zeros.
pub fn read_field(field: &[u8]) -> Option<u32> {
    let digits = &field[field.iter().position(|&b| b != b' ')?..];
    if digits.len() > 1 && digits[0] == b'0' {
        return None;
    }
    let mut n = 0u64;
    for &b in digits {
        if !b.is_ascii_digit() {
            return None;
        }
        n = n * 10 + u64::from(b - b'0');
    }
    u32::try_from(n).ok()
}

/// The numbers of a line, or `None` where refusal 2 fits.
pub fn read_line(line: &[u8]) -> Option<Vec<u32>> {
    if line.is_empty() || !line.len().is_multiple_of(WIDTH) || line.len() > MAX_FIELDS * WIDTH {
        return None;
    }
    line.chunks_exact(WIDTH).map(read_field).collect()
}

/// The float of a number.
fn float(n: &[u32], i: usize) -> f32 {
    f32::from_bits(n[i])
}

/// Three floats from a place on.
fn vector(n: &[u32], i: usize) -> [f32; 3] {
    [float(n, i), float(n, i + 1), float(n, i + 2)]
}

/// The kind of the lines that are openings of a kind.
pub fn line_kind(opening: OpeningKind) -> u32 {
    match opening {
        OpeningKind::Ground => 1,
        OpeningKind::Raised => 10,
    }
}

/// The opening of ten numbers, the first of which says which kind it is.
pub fn opening_of(n: &[u32]) -> Opening {
    Opening {
        kind: if n[0] == 10 { OpeningKind::Raised } else { OpeningKind::Ground },
        home: vector(n, 1),
        fence: float(n, 4),
        cruise: float(n, 5),
        low_volts: float(n, 6),
        required: n[7],
        passed: n[8],
        calibrated: n[9] == 1,
    }
}

/// The tick of eighteen numbers, the first of which is not looked at.
pub fn tick_of(n: &[u32]) -> Tick {
    Tick {
        dt: float(n, 1),
        core: CoreInputs {
            nav: NavState { p: vector(n, 2), v: vector(n, 5), tilt: float(n, 8) },
            uncertainty: float(n, 9),
            motor: float(n, 10),
            nav_compromised: n[11] == 1,
            gnss_diverged: n[12] == 1,
            failed: n[13] == 1,
            failed_after_step: false,
        },
        rpm: n[14] == 1,
        volts: (n[15] >= 1).then(|| float(n, 16)),
        amps: (n[15] == 2).then(|| float(n, 17)),
    }
}

/// The call of a line's numbers, of which there is at least one, or the first of refusals 3, 4, 5 that fits.
pub fn call_of(n: &[u32]) -> Result<Call<'_>, u32> {
    let flag = |i: usize| n[i] <= 1;
    let count = |want: u64| if n.len() as u64 == want { Ok(()) } else { Err(4u32) };
    let range = |ok: bool| if ok { Ok(()) } else { Err(5u32) };
    match n[0] {
        1 | 10 => {
            count(10)?;
            range(n[7] < 1 << 21 && n[8] < 1 << 21 && flag(9))?;
            Ok(Call::Opening(opening_of(n)))
        }
        2 => {
            count(18)?;
            range((11..=14).all(flag) && n[15] <= 2)?;
            range((n[15] >= 1 || n[16] == 0) && (n[15] == 2 || n[17] == 0))?;
            Ok(Call::Tick(tick_of(n)))
        }
        3 => {
            count(2)?;
            range(flag(1))?;
            Ok(Call::Report { failed: n[1] == 1 })
        }
        4 => {
            count(4)?;
            range(n[1] <= 11 && flag(2) && flag(3))?;
            Ok(Call::Command { event: EVENTS[n[1] as usize], level: n[2] == 1, throttle_low: n[3] == 1 })
        }
        5 => {
            if n.len() < 2 {
                return Err(4);
            }
            count(2 + 3 * u64::from(n[1]))?;
            Ok(Call::Points(&n[2..]))
        }
        6 => {
            if n.len() < 2 {
                return Err(4);
            }
            count(2 + 4 * u64::from(n[1]))?;
            Ok(Call::Zones(&n[2..]))
        }
        7 => {
            count(1)?;
            Ok(Call::Totals)
        }
        8 => {
            count(1)?;
            Ok(Call::Record)
        }
        _ => Err(3),
    }
}

/// The backend of one tick: dt, battery and rpm of the sheet.
impl FlightBackend for Tick {
    fn dt(&self) -> f32 {
        self.dt
    }

    fn read_battery_v(&mut self) -> Option<f32> {
        self.volts
    }

    fn read_battery_i(&mut self) -> Option<f32> {
        self.amps
    }

    fn read_motor_rpm(&mut self) -> Option<[i32; 4]> {
        self.rpm.then_some([0; 4])
    }
}

/// The bits of an answer's float: every NaN is 7FC00000. Judged on the bits, since the compiler drops `is_nan` on a root.
pub fn answer_bits(x: f32) -> u32 {
    let bits = x.to_bits();
    if bits & 0x7FFF_FFFF > 0x7F80_0000 {
        NAN
    } else {
        bits
    }
}

/// The day totals: since the opening, the accepted ticks that ended in each mode, and the ticks, reports and commands that ended in another
/// mode than they began in. The Rust has none; they stay at their limit once there.
#[derive(Clone, Copy, Debug, Default)]
pub struct Totals {
    ticks: [u32; 8],
    changes: u32,
}

impl Totals {
    /// A tick that ended in a mode.
    fn tick(&mut self, ended: Mode) {
        let count = &mut self.ticks[ended as usize];
        *count = count.saturating_add(1);
    }

    /// A tick, report or command from one mode to another or the same.
    fn call(&mut self, began: Mode, ended: Mode) {
        self.changes = self.changes.saturating_add(u32::from(began != ended));
    }
}

/// One shuttle: its supervisor once opened, while a report is due what the report needs, the day totals, and the opening's low volts. The Rust
/// keeps of those the quotient by the cell count, and that less 0.15: the quotient is rounded, so that different volts can have the same.
#[derive(Default)]
pub struct Shuttle {
    supervisor: Option<FlightSupervisor>,
    due: Option<Due>,
    totals: Totals,
    low_volts: f32,
}

impl Shuttle {
    pub fn new() -> Self {
        Shuttle::default()
    }

    /// The supervisor, once there was an opening.
    pub fn supervisor(&self) -> Option<&FlightSupervisor> {
        self.supervisor.as_ref()
    }

    pub fn report_due(&self) -> bool {
        self.due.is_some()
    }

    pub fn mode(&self) -> Option<Mode> {
        self.supervisor.as_ref().map(|s| s.mode())
    }

    /// Answer a line.
    pub fn answer(&mut self, line: &[u8]) -> Answer {
        self.answer_numbers(read_line(line).as_deref())
    }

    /// Answer a line by its numbers, `None` where refusal 2 fits.
    pub fn answer_numbers(&mut self, numbers: Option<&[u32]>) -> Answer {
        let call = numbers.ok_or(2).and_then(call_of);
        let asks_totals = matches!(call, Ok(Call::Totals));
        let asks_more = matches!(call, Ok(Call::Totals | Call::Record));
        match call.and_then(|call| self.accept(call)) {
            Ok(outputs) if asks_more => self.with_more(asks_totals, outputs),
            Ok(outputs) => Answer::Ordinary(self.columns(0, outputs)),
            Err(refusal) => Answer::Ordinary(self.columns(refusal, CoreOutputs::default())),
        }
    }

    /// Carry out a call, or the first of refusals 1, 6, 7, 8 that fits.
    fn accept(&mut self, call: Call) -> Result<CoreOutputs, u32> {
        let none = CoreOutputs::default();
        if let Call::Opening(opening) = call {
            self.supervisor = Some(open(opening));
            self.due = None;
            self.totals = Totals::default();
            self.low_volts = opening.low_volts;
            return Ok(none);
        }
        let supervisor = self.supervisor.as_mut().ok_or(1u32)?;
        if self.due.is_some() && !matches!(call, Call::Report { .. }) {
            return Err(6);
        }
        let began = supervisor.mode();
        match call {
            Call::Opening(_) => unreachable!(),
            Call::Tick(inputs) => {
                self.due = tick(supervisor, inputs);
                self.totals.tick(supervisor.mode());
                self.totals.call(began, supervisor.mode());
                Ok(supervisor.core().outputs)
            }
            Call::Report { failed } => {
                // Where it runs the tick again (due.rs), it still counts as the report alone: from the tick's mode to its own.
                report(supervisor, self.due.take().ok_or(7u32)?, failed);
                self.totals.call(began, supervisor.mode());
                Ok(none)
            }
            Call::Command { event, level, throttle_low } => {
                supervisor.command(event, level, throttle_low);
                self.totals.call(began, supervisor.mode());
                Ok(none)
            }
            Call::Points(numbers) => {
                if set_points(supervisor, numbers) {
                    Ok(none)
                } else {
                    Err(8)
                }
            }
            Call::Zones(numbers) => {
                set_zones(supervisor, numbers);
                Ok(none)
            }
            Call::Totals | Call::Record => Ok(none),
        }
    }

    /// The answer's ten numbers.
    fn columns(&self, refusal: u32, outputs: CoreOutputs) -> [u32; ANSWER_FIELDS] {
        let (mode, outstanding, blocker) = match &self.supervisor {
            None => (0, 0, NO_BLOCKER),
            Some(s) => (s.mode() as u32, s.prearm_failing_mask().count_ones(), s.arm_blocked_check().map_or(NO_BLOCKER, |id| id as u32)),
        };
        let [x, y, z] = outputs.setpoint.map(answer_bits);
        [refusal, mode, u32::from(outputs.landing), u32::from(outputs.motors_off), u32::from(outputs.rearm), x, y, z, outstanding, blocker]
    }

    /// The ten numbers with the nine totals behind them.
    fn with_totals(&self, columns: [u32; ANSWER_FIELDS]) -> [u32; TOTALS_ANSWER] {
        let mut numbers = [0; TOTALS_ANSWER];
        let (ordinary, totals) = numbers.split_at_mut(ANSWER_FIELDS);
        ordinary.copy_from_slice(&columns);
        totals[..8].copy_from_slice(&self.totals.ticks);
        totals[8] = self.totals.changes;
        numbers
    }

    /// The ten numbers with the totals or the record behind them. Apart, since nearly every answer has ten.
    #[cold]
    #[inline(never)]
    fn with_more(&self, asks_totals: bool, outputs: CoreOutputs) -> Answer {
        let columns = self.columns(0, outputs);
        if asks_totals {
            Answer::Totals(self.with_totals(columns))
        } else {
            Answer::Record(self.with_record(columns))
        }
    }

    /// The ten numbers with the record behind them.
    fn with_record(&self, columns: [u32; ANSWER_FIELDS]) -> [u32; WIDEST_ANSWER] {
        let mut numbers = [0; WIDEST_ANSWER];
        let (ordinary, record) = numbers.split_at_mut(ANSWER_FIELDS);
        ordinary.copy_from_slice(&columns);
        let mut columns = Columns { places: record.iter_mut() };
        write_record(&mut columns, self.supervisor.as_ref().expect("accepted behind an opening"), self.low_volts, &self.totals);
        assert!(columns.places.next().is_none(), "a record has {RECORD} columns");
        numbers
    }
}

/// The columns of a record, written one after the other.
struct Columns<'a> {
    places: std::slice::IterMut<'a, u32>,
}

impl Columns<'_> {
    fn number(&mut self, number: u32) {
        *self.places.next().expect("a place for every column") = number;
    }

    fn flag(&mut self, flag: bool) {
        self.number(u32::from(flag));
    }

    fn floats(&mut self, floats: &[f32]) {
        floats.iter().for_each(|&x| self.number(answer_bits(x)));
    }
}

/// The record: the supervisor's own fields and what the Rust does not keep, in the order of docs/RECORD.md. Each field holds what the Rattle state
/// holds, with these to be said: the masks are those of the check table, row by row; the regime is 1 for `HoldRegime::Hold`; places beyond a
/// count are 0 whatever the Rust's arrays have there (home, or points and zones of an earlier list). The clock, the mission's source and the
/// receiver are left out with Follow, and of the core the next tick sets everything.
fn write_record(c: &mut Columns, s: &FlightSupervisor, low_volts: f32, totals: &Totals) {
    let (battery, shown) = (&s.batt_est, &s.batt_state);
    let mask = |is_set: &dyn Fn(CheckId) -> bool| CheckId::ALL.iter().filter(|&&id| is_set(id)).fold(0, |mask, &id| mask | 1 << id as u32);
    c.number(9);
    c.floats(&s.home);
    c.floats(&[s.fence_radius, s.cruise_alt, low_volts]);
    c.number(battery.cfg.cells);
    c.flag(s.calibration_configured);
    c.number(mask(&|id| s.check_table.is_required(id)));
    c.number(mask(&|id| s.check_table.passed(id)));
    c.number(s.mode() as u32);
    c.floats(&[battery.consumed_mah, battery.r_est, battery.prev_v, battery.prev_i]);
    c.flag(battery.have_prev);
    for latch in [battery.low, battery.critical] {
        c.floats(&[latch.below_s]);
        c.flag(latch.latched);
    }
    c.floats(&[shown.volts, shown.rest_volts, shown.current_a, shown.consumed_mah, shown.soc, shown.r_est]);
    c.flag(shown.low);
    c.flag(shown.critical);
    c.flag(shown.degraded);
    c.floats(&[s.batt_missing_s]);
    c.flag(s.batt_present);
    c.flag(s.batt_seen);
    c.floats(&s.hold_xy);
    c.flag(s.hold_regime == HoldRegime::Hold);
    c.flag(s.hold_braking);
    c.floats(&[s.brake_s, s.brake_rest_s]);
    c.number(s.runaway_count);
    c.number(s.wind_count);
    c.flag(s.rtl_latched);
    c.flag(s.motors_were_off);
    totals.ticks.iter().for_each(|&count| c.number(count));
    c.number(totals.changes);
    c.number(s.wp_count as u32);
    c.number(s.wp_index as u32);
    c.number(s.zone_count as u32);
    let (points, zones) = (&s.waypoints[..s.wp_count], &s.zones[..s.zone_count]);
    for i in 0..POINT_PLACES {
        c.floats(points.get(i).unwrap_or(&[0.0; 3]));
    }
    for i in 0..ZONE_PLACES {
        let (center, radius) = zones.get(i).map_or(([0.0; 3], 0.0), |zone| (zone.center, zone.radius));
        c.floats(&center);
        c.floats(&[radius]);
    }
    c.number(line_kind(s.opening_kind));
}

/// The supervisor of an opening. Without the calibration flag `set_calibration` is not called: the first tick then reads the flag.
pub fn open(o: Opening) -> FlightSupervisor {
    let table = CheckTable::from_masks(o.required, o.passed);
    let mut supervisor = FlightSupervisor::with_core(FlightCore::default(), o.home, o.fence, o.cruise, o.low_volts, table);
    supervisor.opening_kind = o.kind;
    if o.calibrated {
        supervisor.set_calibration(CalParams { valid: true });
    }
    supervisor
}

/// `set_mission_waypoints` with points of three numbers each.
fn set_points(supervisor: &mut FlightSupervisor, numbers: &[u32]) -> bool {
    let mut points = [[0.0; 3]; MAX_FIELDS / 3];
    let chunks = numbers.chunks_exact(3);
    let count = chunks.len();
    for (point, n) in points.iter_mut().zip(chunks) {
        *point = vector(n, 0);
    }
    supervisor.set_mission_waypoints(&points[..count])
}

/// `set_keepout_zones` with zones of four numbers each.
fn set_zones(supervisor: &mut FlightSupervisor, numbers: &[u32]) {
    let mut zones = [KeepoutZone { center: [0.0; 3], radius: 0.0 }; MAX_FIELDS / 4];
    let chunks = numbers.chunks_exact(4);
    let count = chunks.len();
    for (zone, n) in zones.iter_mut().zip(chunks) {
        *zone = KeepoutZone { center: vector(n, 0), radius: float(n, 3) };
    }
    supervisor.set_keepout_zones(&zones[..count]);
}

/// Write numbers as fields, without a newline.
pub fn write_fields(out: &mut Vec<u8>, numbers: &[u32]) {
    let start = out.len();
    out.resize(start + numbers.len() * WIDTH, b' ');
    for (field, &number) in out[start..].chunks_exact_mut(WIDTH).zip(numbers) {
        let mut n = number;
        for digit in field.iter_mut().rev() {
            *digit = b'0' + (n % 10) as u8;
            n /= 10;
            if n == 0 {
                break;
            }
        }
    }
}

/// Answer every line of the input: a last line without newline counts, a newline at the very end begins no further line.
pub fn answer_sheet(input: &mut impl Read, output: &mut impl Write) -> io::Result<()> {
    let mut shuttle = Shuttle::new();
    each_line(input, |line| {
        let mut answer = Vec::with_capacity(WIDEST_ANSWER * WIDTH + 1);
        write_fields(&mut answer, &shuttle.answer(line));
        answer.push(b'\n');
        output.write_all(&answer)
    })?;
    output.flush()
}

/// Hand over each line of the input, of a line over the longest length no more than one byte too many.
pub fn each_line(input: &mut impl Read, mut each: impl FnMut(&[u8]) -> io::Result<()>) -> io::Result<()> {
    let mut buffer = vec![0u8; 64 * 1024];
    let mut carried: Vec<u8> = Vec::new();
    let mut begun = false;
    let carry = |carried: &mut Vec<u8>, part: &[u8]| {
        let room = (MAX_FIELDS * WIDTH + 1).saturating_sub(carried.len());
        carried.extend_from_slice(&part[..part.len().min(room)]);
    };
    loop {
        let have = match input.read(&mut buffer) {
            Ok(0) => break,
            Ok(have) => have,
            Err(e) if e.kind() == io::ErrorKind::Interrupted => continue,
            Err(e) => return Err(e),
        };
        let mut rest = &buffer[..have];
        while let Some(end) = rest.iter().position(|&b| b == b'\n') {
            if begun {
                carry(&mut carried, &rest[..end]);
                each(&carried)?;
                carried.clear();
                begun = false;
            } else {
                each(&rest[..end])?;
            }
            rest = &rest[end + 1..];
        }
        if !rest.is_empty() {
            carry(&mut carried, rest);
            begun = true;
        }
    }
    if begun {
        each(&carried)?;
    }
    Ok(())
}
