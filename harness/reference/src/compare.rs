//! Two programs on one sheet: their answers side by side, up to the first difference.

use crate::falcon_core::OpeningKind;
use crate::generate::{generate, Among, Profile};
use crate::random::Random;
use crate::records::RecordCounts;
use crate::sheet::{call_of, line_kind, read_field, read_line, Call, ANSWER_FIELDS, MODES, TOTALS_ANSWER, WIDEST_ANSWER, WIDTH};
use std::fmt::{self, Display, Formatter};
use std::io::{self, Read, Write};
use std::path::Path;
use std::process::{Command, Stdio};
use std::{fs, thread};

/// Lines shown before a difference.
const SHOWN: usize = 40;

/// A sheet to run two programs on.
pub struct Sheet {
    /// The words that make it.
    pub title: String,
    pub bytes: Vec<u8>,
    /// With a seed the first program gets it cut at random places.
    pub pieces: Option<u64>,
    /// Its profile, where it is generated.
    pub profile: Option<Profile>,
}

impl Sheet {
    pub fn generated(profile: Profile, seed: u64, lines: usize, pieces: bool, long: bool) -> io::Result<Sheet> {
        let mut title = format!("{profile} {seed} {lines}");
        for (option, given) in [(" --pieces", pieces), (" --long", long)] {
            if given {
                title += option;
            }
        }
        let mut bytes = Vec::new();
        generate(profile, seed, lines, Among { long, ..Among::USUAL }, &mut bytes)?;
        Ok(Sheet { title, bytes, pieces: pieces.then_some(seed), profile: Some(profile) })
    }

    pub fn read(file: &str, pieces: bool) -> io::Result<Sheet> {
        Ok(Sheet { title: file.to_string(), bytes: fs::read(file)?, pieces: pieces.then_some(0), profile: None })
    }
}

/// What the second program answered where both answer a sheet alike; else the first difference with what led there, which is kept in a file.
pub fn compare(programs: [&str; 2], sheet: &Sheet, kept: &Path) -> Result<Counts, String> {
    let title = &sheet.title;
    let said = |e: io::Error| format!("{title}: {e}");
    let first = run(programs[0], &sheet.bytes, sheet.pieces).map_err(said)?;
    let second = run(programs[1], &sheet.bytes, None).map_err(said)?;
    let Some(d) = difference(&first, &second) else {
        return Ok(Counts::of(&sheet.bytes, &second));
    };
    let plain = d.first.map(shown) == d.second.map(shown);
    let text = |line: Option<&[u8]>| match line {
        None => "(no line)".to_string(),
        Some(line) if plain => format!("{:?}", String::from_utf8_lossy(line)),
        Some(line) => shown(line),
    };
    let (from, lines) = since_opening(&sheet.bytes, d.line);
    let mut out = format!("{title}: line {} differs\n", d.line + 1);
    for (program, line) in programs.iter().zip([d.first, d.second]) {
        out += &format!("  {program}: {}\n", text(line));
    }
    out += &format!("lines {} to {} since the last opening", from + 1, from + lines.len());
    let hidden = lines.len().saturating_sub(SHOWN);
    if hidden > 0 {
        out += &format!(" (the first and the last {SHOWN})");
        out += &format!("\n  {}: {}", from + 1, shown(lines[0]));
    }
    for (k, line) in lines.iter().enumerate().skip(hidden) {
        out += &format!("\n  {}: {}", from + k + 1, shown(line));
    }
    let mut whole = lines.join(&b'\n');
    whole.push(b'\n');
    fs::write(kept, whole).map_err(said)?;
    Err(format!("{out}\nall of them: {}", kept.display()))
}

/// A line without the padding between fields, cut where it is long.
fn shown(line: &[u8]) -> String {
    let whole = String::from_utf8_lossy(line).into_owned();
    let numbers = line.len() % WIDTH == usize::from(line.ends_with(b"\n")) && line.iter().all(|b| b.is_ascii_digit() || b" \n".contains(b));
    let text = if numbers { whole.split_whitespace().collect::<Vec<_>>().join(" ") } else { format!("{:?}", whole) };
    if text.len() > 300 {
        let end = (0..=300).rev().find(|&i| text.is_char_boundary(i)).unwrap_or(0);
        return format!("{} ... ({} bytes)", &text[..end], line.len());
    }
    text
}

/// What a program writes, given a sheet; with a seed the sheet is written in pieces of random lengths.
pub fn run(program: &str, sheet: &[u8], pieces: Option<u64>) -> io::Result<Vec<u8>> {
    let mut child = Command::new(program).stdin(Stdio::piped()).stdout(Stdio::piped()).spawn()?;
    let mut input = child.stdin.take().expect("piped");
    let mut output = child.stdout.take().expect("piped");
    let mut answers = Vec::new();
    thread::scope(|scope| -> io::Result<()> {
        let writer = scope.spawn(move || match pieces {
            None => input.write_all(sheet),
            Some(seed) => write_in_pieces(&mut input, sheet, seed),
        });
        output.read_to_end(&mut answers)?;
        match writer.join().expect("the writer does not panic") {
            Err(e) if e.kind() != io::ErrorKind::BrokenPipe => Err(e),
            _ => Ok(()),
        }
    })?;
    let status = child.wait()?;
    if !status.success() {
        return Err(io::Error::other(format!("{program}: {status} after {} bytes", answers.len())));
    }
    Ok(answers)
}

/// Write a sheet in pieces, so that the reader gets it cut at any place.
fn write_in_pieces(input: &mut impl Write, sheet: &[u8], seed: u64) -> io::Result<()> {
    let mut random = Random::new(seed);
    let mut rest = sheet;
    while !rest.is_empty() {
        let most = random.pick(&[1, 12, 150, 1_500, 20_000, 70_000, 200_000]);
        let length = (1 + random.below(most) as usize).min(rest.len());
        input.write_all(&rest[..length])?;
        input.flush()?;
        rest = &rest[length..];
        thread::yield_now();
    }
    Ok(())
}

/// Where two outputs first differ: the line's number from 0 and both lines.
pub struct Difference<'a> {
    pub line: usize,
    pub first: Option<&'a [u8]>,
    pub second: Option<&'a [u8]>,
}

/// The first difference of two outputs.
pub fn difference<'a>(first: &'a [u8], second: &'a [u8]) -> Option<Difference<'a>> {
    if first == second {
        return None;
    }
    let mut firsts = first.split_inclusive(|&b| b == b'\n');
    let mut seconds = second.split_inclusive(|&b| b == b'\n');
    let mut line = 0;
    loop {
        let (first, second) = (firsts.next(), seconds.next());
        if first != second {
            return Some(Difference { line, first, second });
        }
        line += 1;
    }
}

/// The lines of a sheet from the last opening before a line on, that line included. An opening starts everything anew.
pub fn since_opening(sheet: &[u8], line: usize) -> (usize, Vec<&[u8]>) {
    let lines: Vec<&[u8]> = sheet.split(|&b| b == b'\n').take(line + 1).collect();
    let opens = |l: &&[u8]| read_line(l).is_some_and(|n| matches!(call_of(&n), Ok(Call::Opening(_))));
    let from = lines.iter().rposition(opens).unwrap_or(0);
    (from, lines[from..].to_vec())
}

/// How often each refusal, each mode, the totals and a record were answered, each kind of opening accepted, and each mode entered.
#[derive(Clone, Default)]
pub struct Counts {
    pub lines: u64,
    /// Accepted lines of kind 7, by the answer's width.
    pub totals: u64,
    /// Accepted lines of kind 8, by the answer's width.
    pub records: RecordCounts,
    /// Accepted lines of kinds 1 and 10.
    pub openings: [u64; 2],
    pub refusals: [u64; 10],
    pub modes: [u64; 8],
    /// Answers with this mode after one with another, or after none in the case of a mode other than 0.
    pub entered: [u64; 8],
}

impl Counts {
    pub fn of(sheet: &[u8], answers: &[u8]) -> Counts {
        let mut counts = Counts::default();
        let mut before = 0;
        let lines = sheet.split(|&b| b == b'\n').zip(answers.split_inclusive(|&b| b == b'\n'));
        for (line, answer) in lines.filter(|(_, answer)| answer.len() > 2 * WIDTH) {
            counts.lines += 1;
            if answer[WIDTH - 1] == b'0' {
                let kind = line.first_chunk::<WIDTH>().and_then(|field| read_field(field));
                for (n, opening) in counts.openings.iter_mut().zip([OpeningKind::Ground, OpeningKind::Raised]) {
                    *n += u64::from(kind == Some(line_kind(opening)));
                }
            }
            counts.totals += u64::from(answer.len() == TOTALS_ANSWER * WIDTH + 1);
            if answer.len() == WIDEST_ANSWER * WIDTH + 1 {
                let columns: Option<Vec<u32>> = answer[ANSWER_FIELDS * WIDTH..].chunks_exact(WIDTH).map(read_field).collect();
                counts.records.count(&columns.unwrap_or_default());
            }
            if let Some(n) = counts.refusals.get_mut(usize::from(answer[WIDTH - 1] - b'0')) {
                *n += 1;
            }
            let mode = usize::from(answer[2 * WIDTH - 1] - b'0');
            if let Some(n) = counts.modes.get_mut(mode) {
                *n += 1;
                counts.entered[mode] += u64::from(mode != before);
            }
            before = mode;
        }
        counts
    }

    pub fn add(&mut self, other: &Counts) {
        self.lines += other.lines;
        self.totals += other.totals;
        self.records.add(&other.records);
        let sums = self.refusals.iter_mut().chain(&mut self.openings).chain(&mut self.modes).chain(&mut self.entered);
        for (sum, n) in sums.zip(other.refusals.iter().chain(&other.openings).chain(&other.modes).chain(&other.entered)) {
            *sum += n;
        }
    }

    /// Every refusal 1..8, every mode, the totals and every sort of record that a profile has were answered, and openings of both kinds accepted.
    pub fn has_all(&self, profile: Option<Profile>) -> bool {
        let counts = self.refusals[1..9].iter().chain(&self.openings).chain(&self.modes).chain([&self.totals]);
        counts.into_iter().all(|&n| n > 0) && self.records.has_all(profile)
    }
}

impl Display for Counts {
    fn fmt(&self, f: &mut Formatter) -> fmt::Result {
        let named = |counts: &[u64]| MODES.iter().zip(counts).map(|(mode, n)| format!("{mode} {n}")).collect::<Vec<_>>().join(", ");
        writeln!(f, "refusals answered, 0 (accepted) to 8: {:?}", &self.refusals[..9])?;
        writeln!(f, "modes answered: {}", named(&self.modes))?;
        writeln!(f, "modes entered: {}", named(&self.entered))?;
        writeln!(f, "openings accepted: of kind 1 {}, of kind 10 {}", self.openings[0], self.openings[1])?;
        writeln!(f, "totals answered: {}", self.totals)?;
        write!(f, "records answered: {}", self.records)
    }
}
