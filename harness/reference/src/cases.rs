//! Document 01's worked example, and cases: readable calls with what is expected of each answer (harness/cases/cases.txt says how they are written).

use crate::sheet::{answer_sheet, write_fields, Answer, Shuttle, ANSWER_FIELDS, RECORD, TOTALS};

const WORKED_INPUT: [&str; 4] =
    ["1 0 0 0 1120403456 1092616192 1096810496 0 0 0", "4 0 1 1", "4 1 1 1", "2 0 0 0 0 0 0 0 0 0 0 0 0 0 0 0 0 0"];
const WORKED_OUTPUT: [&str; 4] = ["0 0 0 0 0 0 0 0 0 21", "0 1 0 0 0 0 0 0 0 21", "0 2 0 0 0 0 0 0 0 21", "0 2 0 0 1 0 0 3240099840 0 21"];

/// Run document 01's worked example.
pub fn worked_example() -> Result<(), String> {
    let input = padded(&WORKED_INPUT);
    let mut output = Vec::new();
    answer_sheet(&mut input.as_slice(), &mut output).map_err(|e| e.to_string())?;
    if output == padded(&WORKED_OUTPUT) {
        Ok(())
    } else {
        Err(format!("answered\n{}", String::from_utf8_lossy(&output)))
    }
}

/// Lines of numbers, each padded to eleven columns.
fn padded(lines: &[&str]) -> Vec<u8> {
    let mut out = Vec::new();
    for line in lines {
        for number in line.split(' ') {
            out.extend_from_slice(format!("{number:>11}").as_bytes());
        }
        out.push(b'\n');
    }
    out
}

/// A case: its sheet, and the reference's answers to it.
pub struct Case {
    pub name: String,
    pub sheet: Vec<u8>,
    pub answers: Vec<u8>,
}

/// The cases of a text; an error where the reference's answer is not the one expected.
pub fn cases_of(text: &str) -> Result<Vec<Case>, String> {
    let mut cases: Vec<Case> = Vec::new();
    let mut shuttle = Shuttle::new();
    let mut before: Option<Answer> = None;
    for (at, line) in text.lines().enumerate() {
        let line = line.trim();
        if line.is_empty() || line.starts_with('#') {
            continue;
        }
        let in_line = |e: String| format!("line {}: {e}", at + 1);
        if let Some(name) = line.strip_prefix("case ") {
            shuttle = Shuttle::new();
            before = None;
            let (sheet, answers) = (Vec::new(), Vec::new());
            cases.push(Case { name: name.to_string(), sheet, answers });
            continue;
        }
        let case = cases.last_mut().ok_or_else(|| in_line("no case yet".to_string()))?;
        if line == "no newline at the end" {
            case.sheet.pop();
            continue;
        }
        let (call, expected) = line.split_once("=>").unwrap_or((line, ""));
        let (times, call) = match call.split_once('*') {
            Some((n, rest)) => (n.trim().parse::<usize>().map_err(|e| in_line(e.to_string()))?, rest.trim()),
            None => (1, call.trim()),
        };
        let (bytes, then_report) = line_of(call).map_err(in_line)?;
        for _ in 0..times {
            let answer = take(case, &mut shuttle, &bytes);
            meets(&answer, before.as_deref(), expected).map_err(|e| in_line(format!("{e}; answered {:?}", &answer[..])))?;
            before = Some(answer);
            if then_report {
                let mut report = Vec::new();
                write_fields(&mut report, &[3, 0]);
                let answer = take(case, &mut shuttle, &report);
                meets(&answer, before.as_deref(), "").map_err(|e| in_line(format!("the report: {e}")))?;
                before = Some(answer);
            }
        }
    }
    Ok(cases)
}

/// Add a line and its answer to a case.
fn take(case: &mut Case, shuttle: &mut Shuttle, line: &[u8]) -> Answer {
    let answer = shuttle.answer(line);
    case.sheet.extend_from_slice(line);
    case.sheet.push(b'\n');
    write_fields(&mut case.answers, &answer);
    case.answers.push(b'\n');
    answer
}

/// The bytes of a call written out, and whether a report with flag 0 follows it.
fn line_of(call: &str) -> Result<(Vec<u8>, bool), String> {
    let (kind, rest) = call.split_once(' ').unwrap_or((call, ""));
    let words: Vec<&str> = rest.split_whitespace().collect();
    let mut numbers: Vec<u32> = Vec::new();
    match kind {
        "bytes" => return Ok((bytes_of(rest.trim())?, false)),
        "numbers" => {
            for w in &words {
                numbers.push(w.parse().map_err(|_| format!("no number: {w}"))?);
            }
        }
        "open" => {
            numbers = vec![1, 0, 0, 0, bits("100")?, bits("10")?, bits("21")?, 0, 0, 0];
            for w in &words {
                let (key, value) = w.split_once('=').unwrap_or((w, "1"));
                match key {
                    "home" => floats_at(&mut numbers, 1, value)?,
                    "fence" => floats_at(&mut numbers, 4, value)?,
                    "cruise" => floats_at(&mut numbers, 5, value)?,
                    "low" => floats_at(&mut numbers, 6, value)?,
                    "required" => numbers[7] = mask(value)?,
                    "passed" => numbers[8] = mask(value)?,
                    "calibrated" => numbers[9] = 1,
                    "raised" => numbers[0] = 10,
                    _ => return Err(format!("unknown word {w}")),
                }
            }
        }
        "tick" | "fly" => {
            numbers = vec![0; 18];
            numbers[0] = 2;
            for w in &words {
                let (key, value) = w.split_once('=').unwrap_or((w, ""));
                match key {
                    "dt" => floats_at(&mut numbers, 1, value)?,
                    "p" => floats_at(&mut numbers, 2, value)?,
                    "v" => floats_at(&mut numbers, 5, value)?,
                    "tilt" => floats_at(&mut numbers, 8, value)?,
                    "uncertainty" => floats_at(&mut numbers, 9, value)?,
                    "motor" => floats_at(&mut numbers, 10, value)?,
                    "nav" => numbers[11] = 1,
                    "gnss" => numbers[12] = 1,
                    "failed" => numbers[13] = 1,
                    "rpm" => numbers[14] = 1,
                    "volts" => {
                        numbers[15] = numbers[15].max(1);
                        floats_at(&mut numbers, 16, value)?;
                    }
                    "amps" => {
                        numbers[15] = 2;
                        floats_at(&mut numbers, 17, value)?;
                    }
                    _ => return Err(format!("unknown word {w}")),
                }
            }
        }
        "report" => numbers = vec![3, rest.trim().parse().map_err(|_| "no flag".to_string())?],
        "command" => {
            let event = EVENT_NAMES.iter().position(|n| Some(n) == words.first());
            let event = event.ok_or_else(|| format!("unknown event in {call}"))? as u32;
            let flag = |i: usize| words.get(i).map_or(1, |w| u32::from(*w != "0"));
            numbers = vec![4, event, flag(1), flag(2)];
        }
        "points" | "zones" => {
            let each = if kind == "points" { 3 } else { 4 };
            numbers = vec![0; 2 + each * words.len()];
            numbers[0] = if kind == "points" { 5 } else { 6 };
            numbers[1] = words.len() as u32;
            for (k, w) in words.iter().enumerate() {
                floats_at(&mut numbers, 2 + each * k, w)?;
            }
        }
        "totals" => numbers = vec![7],
        "record" => numbers = vec![8],
        _ => return Err(format!("unknown call {call}")),
    }
    let mut bytes = Vec::new();
    write_fields(&mut bytes, &numbers);
    Ok((bytes, kind == "fly"))
}

const EVENT_NAMES: [&str; 12] = [
    "Arm",
    "RequestTakeoff",
    "RequestMission",
    "RequestLoiter",
    "RequestRtl",
    "RequestLand",
    "RequestDisarm",
    "ReachedAltitude",
    "ReachedHome",
    "Touchdown",
    "Failsafe",
    "Terminate",
];
const MODE_NAMES: [&str; 8] = ["Disarmed", "Armed", "Takeoff", "Loiter", "Mission", "Land", "Rtl", "Terminated"];

/// A float's bits; `^` behind it is the next float up, `_` the next one down.
fn bits(word: &str) -> Result<u32, String> {
    let plain = word.trim_end_matches(['^', '_']);
    let mut x: f32 = plain.parse().map_err(|_| format!("no float: {word}"))?;
    for step in word[plain.len()..].bytes() {
        x = if step == b'^' { x.next_up() } else { x.next_down() };
    }
    Ok(x.to_bits())
}

fn floats_at(numbers: &mut [u32], at: usize, value: &str) -> Result<(), String> {
    for (k, word) in value.split(',').enumerate() {
        *numbers.get_mut(at + k).ok_or("too many floats")? = bits(word)?;
    }
    Ok(())
}

/// A mask: check numbers joined by `+`, `none` or `all`.
fn mask(value: &str) -> Result<u32, String> {
    match value {
        "none" => Ok(0),
        "all" => Ok((1 << 21) - 1),
        _ => value.split('+').try_fold(0, |m, n| n.parse::<u32>().map(|n| m | 1 << n).map_err(|_| format!("no check: {n}"))),
    }
}

/// Bytes written between quotes with \t, \r, \0 and \xNN.
fn bytes_of(text: &str) -> Result<Vec<u8>, String> {
    let inner = text.strip_prefix('"').and_then(|t| t.strip_suffix('"')).ok_or("no quotes")?;
    let mut out = Vec::new();
    let mut rest = inner.as_bytes();
    while let Some((&b, tail)) = rest.split_first() {
        rest = tail;
        if b != b'\\' {
            out.push(b);
            continue;
        }
        let (&e, tail) = rest.split_first().ok_or("nothing after \\")?;
        rest = tail;
        match e {
            b't' => out.push(b'\t'),
            b'r' => out.push(b'\r'),
            b'0' => out.push(0),
            b'x' if rest.len() >= 2 => {
                let hex = std::str::from_utf8(&rest[..2]).map_err(|e| e.to_string())?;
                out.push(u8::from_str_radix(hex, 16).map_err(|e| e.to_string())?);
                rest = &rest[2..];
            }
            _ => return Err(format!("unknown escape in {text}")),
        }
    }
    Ok(out)
}

/// The pairs `COLUMN=VALUE` of a list, the columns being those of a record, counted from 1.
fn columns_of(list: &str) -> Result<Vec<(usize, &str)>, String> {
    list.split(',')
        .map(|word| {
            let (column, value) = word.split_once('=').ok_or_else(|| format!("no COLUMN=VALUE: {word}"))?;
            let column = column.parse().ok().filter(|column| (1..=RECORD).contains(column));
            Ok((column.ok_or_else(|| format!("no column of a record: {word}"))?, value))
        })
        .collect()
}

/// Does an answer meet what a case expects? Words not given are not looked at, but for the refusal, which is then 0.
fn meets(answer: &[u32], before: Option<&[u32]>, expected: &str) -> Result<(), String> {
    let words: Vec<&str> = expected.split_whitespace().collect();
    let mut refusal = 0;
    let mut k = 0;
    let check = |field: usize, want: u32| {
        if answer.get(field) == Some(&want) {
            Ok(())
        } else {
            Err(format!("field {} is not {want}", field + 1))
        }
    };
    while k < words.len() {
        let value = words.get(k + 1).copied().unwrap_or("");
        let number = || value.parse::<u32>().map_err(|_| format!("no number: {value}"));
        let mut used = 2;
        match words[k] {
            "refused" => refusal = number()?,
            "mode" => {
                let mode = MODE_NAMES.iter().position(|n| *n == value);
                check(1, mode.ok_or_else(|| format!("unknown mode {value}"))? as u32)?;
            }
            "landing" => check(2, number()?)?,
            "off" => check(3, number()?)?,
            "rearm" => check(4, number()?)?,
            "setpoint" => {
                for (i, word) in value.split(',').enumerate() {
                    check(5 + i, bits(word)?)?;
                }
            }
            "outstanding" => check(8, number()?)?,
            "blocker" => check(9, number()?)?,
            "totals" => {
                let totals: Vec<&str> = value.split(',').collect();
                if totals.len() != TOTALS {
                    return Err(format!("not nine totals: {value}"));
                }
                for (i, word) in totals.iter().enumerate() {
                    check(ANSWER_FIELDS + i, word.parse().map_err(|_| format!("no number: {word}"))?)?;
                }
            }
            "columns" => {
                for (column, number) in columns_of(value)? {
                    check(ANSWER_FIELDS + column - 1, number.parse().map_err(|_| format!("no number: {number}"))?)?;
                }
            }
            "floats" => {
                for (column, word) in columns_of(value)? {
                    check(ANSWER_FIELDS + column - 1, bits(word)?)?;
                }
            }
            "zeros" => {
                let (first, last) = value.split_once("..").ok_or_else(|| format!("no FIRST..LAST: {value}"))?;
                let ends = first.parse::<usize>().ok().zip(last.parse::<usize>().ok());
                let (first, last) = ends.filter(|&(a, b)| 1 <= a && a <= b && b <= RECORD).ok_or_else(|| format!("no columns: {value}"))?;
                for column in first..=last {
                    check(ANSWER_FIELDS + column - 1, 0)?;
                }
            }
            "again" => {
                if before != Some(answer) {
                    return Err("not the answer of the line before it".to_string());
                }
                used = 1;
            }
            first => {
                refusal = first.parse().map_err(|_| format!("unknown word {first}"))?;
                used = words.len() - k;
                if used != answer.len() {
                    return Err(format!("{used} numbers expected"));
                }
                for (i, word) in words[k..].iter().enumerate().skip(1) {
                    check(i, word.parse().map_err(|_| format!("no number: {word}"))?)?;
                }
            }
        }
        k += used;
    }
    check(0, refusal)
}
