//! `figures < SHEET` counts what a sheet reaches: refusals, modes, openings, totals, records, events handed to the mode machine, branches of the Rust.
//! It fails if a branch is not reached that can be reached, or if one is that cannot.

use reference::cover;
use reference::falcon_core::OpeningKind;
use reference::records::RecordCounts;
use reference::sheet::{call_of, each_line, read_line, Answer, Call, Shuttle, ANSWER_FIELDS, MODES};
use std::io;
use std::process::ExitCode;

const EVENTS: [&str; 12] = [
    "Arm",
    "RequestTakeoff",
    "RequestMission",
    "RequestLoiter",
    "RequestRtl",
    "RequestLand",
    "RequestDisarm",
    "ReachedAltitude",
    "ReachedHome",
    "Touchdown",
    "Failsafe",
    "Terminate",
];

/// Branches that no sheet reaches, and why.
const UNREACHABLE: [(&str, &str); 11] = [
    ("fsm: RequestTakeoff, position: false", "only the report is without a position, and it gives Failsafe"),
    ("battery: no cells: true", "the cell count is 6"),
    ("rank: Terminated", "ranks are asked only while airborne"),
    ("checks: battery critical and not low: true", "critical implies low"),
    ("checks: neither low nor critical: false", "critical implies low"),
    ("breach: critical and not low: true", "critical implies low"),
    ("leg: number beyond the list: true", "an accepted list sets the leg to 0, and it rises only below the count"),
    ("avoid: urgency above 0: false", "a zone acts only where d < safe + 4"),
    ("mode: Mission, follow: true", "document 01 leaves Follow out"),
    ("report: airborne: false", "a report is due only after a flying tick"),
    ("report: rank below 3: false", "airborne and not in Land is rank 1 or 2"),
];

fn main() -> ExitCode {
    let mut shuttle = Shuttle::new();
    let (mut lines, mut refusals, mut modes, mut totals, mut records) = (0u64, [0u64; 9], [0u64; 8], 0u64, RecordCounts::default());
    // Accepted openings of kinds 1 and 10, and those of kind 10 that ended a report's being due.
    let (mut openings, mut while_due) = ([0u64; 2], 0u64);
    let read = each_line(&mut io::stdin().lock(), |line| {
        if let Some(Ok(Call::Opening(opening))) = read_line(line).as_deref().map(call_of) {
            openings[usize::from(opening.kind == OpeningKind::Raised)] += 1;
            while_due += u64::from(opening.kind == OpeningKind::Raised && shuttle.report_due());
        }
        let answer = shuttle.answer(line);
        lines += 1;
        refusals[answer[0] as usize] += 1;
        modes[answer[1] as usize] += 1;
        match &answer {
            Answer::Ordinary(_) => {}
            Answer::Totals(_) => totals += 1,
            Answer::Record(numbers) => records.count(&numbers[ANSWER_FIELDS..]),
        }
        Ok(())
    });
    if let Err(e) = read {
        eprintln!("figures: {e}");
        return ExitCode::FAILURE;
    }
    println!("{lines} lines");
    println!("refusals answered (0 is accepted):");
    for (number, count) in refusals.iter().enumerate() {
        println!("  {number}: {count}");
    }
    println!("modes answered:");
    for (mode, count) in MODES.iter().zip(modes) {
        println!("  {mode}: {count}");
    }
    println!("openings accepted: of kind 1 {}, of kind 10 {}, of these while a report was due {while_due}", openings[0], openings[1]);
    println!("totals answered: {totals}");
    println!("records answered: {records}");
    println!("events handed to the mode machine, by the mode met (+ without a position):");
    let mut pairs = 0;
    for (m, mode) in MODES.iter().enumerate() {
        for (e, event) in EVENTS.iter().enumerate() {
            let [with, without] = cover::events(m, e);
            let more = if without > 0 { format!(" + {without}") } else { String::new() };
            println!("  {mode}, {event}: {with}{more}");
            pairs += usize::from(with + without > 0);
        }
    }
    println!("branches:");
    let mut faults = 0;
    let mut reached = 0;
    for name in cover::names() {
        let count = cover::count(name);
        let why = UNREACHABLE.iter().find(|(n, _)| n == name).map(|(_, why)| *why);
        reached += usize::from(count > 0);
        match why {
            None if count == 0 => println!("  {name}: NOT REACHED"),
            None => println!("  {name}: {count}"),
            Some(why) if count == 0 => println!("  {name}: cannot be reached: {why}"),
            Some(why) => println!("  {name}: {count}, THOUGH IT CANNOT BE REACHED: {why}"),
        }
        faults += usize::from((count == 0) != why.is_some());
    }
    let all = cover::names().len();
    println!(
        "{reached} of {all} branches reached, {} cannot be, {faults} faults; {pairs} of 96 pairs of mode and event",
        UNREACHABLE.len()
    );
    let answered =
        refusals[1..].iter().chain(&modes).chain(&openings).chain([&while_due, &totals]).all(|&n| n > 0) && records.has_all(None);
    if faults == 0 && pairs == 96 && answered {
        ExitCode::SUCCESS
    } else {
        ExitCode::FAILURE
    }
}
