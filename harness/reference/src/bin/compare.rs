//! `compare PROGRAM REFERENCE PROFILE SEED LINES [--pieces] [--long] [--all]` runs both programs on a generated sheet and stops at the first
//! difference. With --pieces the sheet is cut at random places on its way into PROGRAM; with --long lines of a megabyte or more are put into
//! it; with --all it also fails unless every refusal 1..8, every mode, the totals of kind 7 and every sort of record of kind 8 were answered, and openings
//! of kinds 1 and 10 accepted: records with points, with zones, with both unless the profile is edge, with a NaN unless it is flight, of days opened by
//! kind 1 and by kind 10. `compare PROGRAM REFERENCE --sheet FILE` takes a sheet from a file, and --pieces and --all too. `compare PROGRAM REFERENCE
//! --scale LINES SEED FIGURES` takes so many lines in sheets of all profiles from a seed on, some in pieces, some with long lines, hands them to the
//! program `figures` too, and fails unless all of them together reach what --all asks for.

use reference::compare::{compare, Counts, Sheet};
use reference::generate::Profile;
use std::io::{self, Write};
use std::path::Path;
use std::process::{Command, ExitCode, Stdio};
use std::{env, fs};

const USAGE: &str = "usage: compare PROGRAM REFERENCE wild|flight|edge SEED LINES [--pieces] [--long] [--all]
       compare PROGRAM REFERENCE --sheet FILE [--pieces] [--all]
       compare PROGRAM REFERENCE --scale LINES SEED FIGURES";

/// Lines of a sheet of --scale.
const SHEET_LINES: usize = 250_000;

fn main() -> ExitCode {
    match answer() {
        Ok(()) => ExitCode::SUCCESS,
        Err(e) => {
            eprintln!("{e}");
            ExitCode::FAILURE
        }
    }
}

fn answer() -> Result<(), String> {
    const OPTIONS: [&str; 3] = ["--pieces", "--long", "--all"];
    let (options, words): (Vec<String>, Vec<String>) = env::args().skip(1).partition(|a| OPTIONS.contains(&a.as_str()));
    let option = |name: &str| options.iter().any(|o| o == name);
    let words: Vec<&str> = words.iter().map(String::as_str).collect();
    let kept = env::current_exe().map_err(said)?.with_file_name("difference.sheet");
    match words.as_slice() {
        [program, reference, "--scale", lines, seed, figures] if options.is_empty() => {
            let (lines, seed) = (lines.parse().map_err(|_| USAGE)?, seed.parse().map_err(|_| USAGE)?);
            scale([program, reference], lines, seed, figures, &kept)
        }
        [program, reference, "--sheet", file] if !option("--long") => {
            let sheet = Sheet::read(file, option("--pieces")).map_err(|e| format!("{file}: {e}"))?;
            one([program, reference], &sheet, option("--all"), &kept)
        }
        [program, reference, profile, seed, lines] => {
            let profile = Profile::of(profile).ok_or(USAGE)?;
            let (seed, lines) = (seed.parse().map_err(|_| USAGE)?, lines.parse().map_err(|_| USAGE)?);
            let sheet = Sheet::generated(profile, seed, lines, option("--pieces"), option("--long")).map_err(said)?;
            one([program, reference], &sheet, option("--all"), &kept)
        }
        _ => Err(USAGE.to_string()),
    }
}

fn said(e: io::Error) -> String {
    format!("compare: {e}")
}

/// One sheet.
fn one(programs: [&str; 2], sheet: &Sheet, all: bool, kept: &Path) -> Result<(), String> {
    let counts = compare(programs, sheet, kept)?;
    let Counts { lines, refusals, modes, totals, records, openings, .. } = &counts;
    let title = &sheet.title;
    println!(
        "{title}: {lines} lines alike; refusals 0..8: {:?}; modes 0..7: {modes:?}; openings of kinds 1, 10: {openings:?}; totals: {totals}; records: {records}",
        &refusals[..9]
    );
    if all && !counts.has_all(sheet.profile) {
        return Err(format!("{title}: a refusal, a mode, a kind of opening, the totals or a sort of record were not answered"));
    }
    Ok(())
}

/// Sheets of all profiles from a seed on, of each seed one of each; seeds are in turn as they are, in pieces, with long lines, and both.
fn scale(programs: [&str; 2], lines: usize, first_seed: u64, figures: &str, kept: &Path) -> Result<(), String> {
    let mut counter = Command::new(figures).stdin(Stdio::piped()).stdout(Stdio::piped()).spawn().map_err(said)?;
    let mut counted = counter.stdin.take().expect("piped");
    let (mut total, mut sheets, mut cut, mut long, mut bytes) = (Counts::default(), 0u64, 0, 0, 0);
    let is_long = |line: &&[u8]| line.len() >= 1_000_000;
    let mut left = lines;
    while left > 0 {
        let (turn, profile) = (sheets / 3, Profile::ALL[sheets as usize % 3]);
        let (pieces, with_long) = (turn % 4 % 2 == 1, turn % 4 >= 2);
        let sheet = Sheet::generated(profile, first_seed + turn, left.min(SHEET_LINES), pieces, with_long).map_err(said)?;
        let counts = compare(programs, &sheet, kept)?;
        println!("{}: {} lines, {} bytes alike", sheet.title, counts.lines, sheet.bytes.len());
        counted.write_all(&sheet.bytes).map_err(|e| format!("{figures}: {e}"))?;
        left -= left.min(SHEET_LINES);
        total.add(&counts);
        sheets += 1;
        cut += u64::from(pieces);
        long += sheet.bytes.split(|&b| b == b'\n').filter(is_long).count();
        bytes += sheet.bytes.len();
    }
    drop(counted);
    let output = counter.wait_with_output().map_err(said)?.stdout;
    let branches = kept.with_file_name("figures.txt");
    fs::write(&branches, &output).map_err(said)?;
    println!(
        "{sheets} sheets of wild, flight and edge, seeds {first_seed} to {}: {} lines, {bytes} bytes, no difference",
        first_seed + sheets.saturating_sub(1) / 3,
        total.lines
    );
    println!("{cut} sheets cut at random places, {long} lines of a megabyte or more\n{total}");
    let last = String::from_utf8_lossy(&output).lines().last().unwrap_or("no figures").to_string();
    println!("{last} ({})", branches.display());
    if total.has_all(None) {
        Ok(())
    } else {
        Err("not all of these were answered: more lines reach them".to_string())
    }
}
