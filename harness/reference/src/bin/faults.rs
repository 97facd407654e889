//! `faults FOLDER LIBRARY CASES [NAME...]` seeds the faults of FOLDER/faults.txt, or those named, into copies of the Rust, one at a time, and says
//! what tells each from the unchanged Rust: the generated sheets of the gate, the cases of CASES, or `leaf` linked with LIBRARY. Copies and
//! programs go to the folder `seeded` beside this program, with the table of results. It fails where a fault survives that is not said to be
//! equivalent, or where one that is said to be is told apart.

use reference::compare::{difference, run, Sheet};
use reference::generate::Profile;
use reference::sheet::answer_sheet;
use std::collections::BTreeMap;
use std::path::{Path, PathBuf};
use std::process::{Command, ExitCode};
use std::{env, fs};

/// Lines of a generated sheet, and their seeds: those of the gate.
const LINES: usize = 100_000;
const SEEDS: [u64; 3] = [1, 2, 3];

/// The copies, as build.rs patched them, and the sheet: what a fault may stand in.
const SOURCES: [(&str, &str); 6] = [
    ("relay_fsm", include_str!(concat!(env!("OUT_DIR"), "/relay_fsm.rs"))),
    ("relay_fsafe", include_str!(concat!(env!("OUT_DIR"), "/relay_fsafe.rs"))),
    ("relay_batt", include_str!(concat!(env!("OUT_DIR"), "/relay_batt.rs"))),
    ("relay_preflight", include_str!(concat!(env!("OUT_DIR"), "/relay_preflight.rs"))),
    ("supervisor", include_str!(concat!(env!("OUT_DIR"), "/supervisor.rs"))),
    ("sheet", include_str!("../sheet.rs")),
];

/// What else the programs are made of.
const OTHERS: [(&str, &str); 9] = [
    ("due", include_str!("../due.rs")),
    ("falcon_core", include_str!("../falcon_core.rs")),
    ("stand_ins", include_str!("../stand_ins.rs")),
    ("random", include_str!("../random.rs")),
    ("generate/float", include_str!("../generate/float.rs")),
    ("battery", include_str!("../../../leaf/src/battery.rs")),
    ("floats", include_str!("../../../leaf/src/floats.rs")),
    ("tables", include_str!("../../../leaf/src/tables.rs")),
    ("proved", include_str!("../../../proved/src/lib.rs")),
];

/// The modules of both programs.
const MODULES: &str = "#![allow(dead_code)]
pub mod due;
pub mod falcon_core;
pub mod relay_batt;
pub mod relay_fsafe;
pub mod relay_fsm;
pub mod relay_preflight;
pub mod sheet;
pub mod stand_ins;
";

/// The program that answers a sheet.
const ANSWERS: &str = "fn main() -> std::io::Result<()> {
    let mut output = std::io::BufWriter::with_capacity(1 << 16, std::io::stdout().lock());
    sheet::answer_sheet(&mut std::io::stdin().lock(), &mut output)
}
";

/// `leaf` with the Rust in its own crate instead of the crate `reference`.
const LEAF_MODULES: &str = "extern crate self as reference;
pub mod random;
pub mod generate {
    pub mod float;
}
";
const LEAF: &str = include_str!("../../../leaf/src/main.rs");

/// A fault: its name, the file it stands in, the texts there with what takes their place, and why no answer shows it, if none does.
#[derive(Default)]
struct Fault {
    name: String,
    file: String,
    changes: Vec<(String, String)>,
    equivalent: Option<String>,
}

fn main() -> ExitCode {
    let args: Vec<String> = env::args().skip(1).collect();
    let [folder, library, cases, names @ ..] = args.as_slice() else {
        eprintln!("usage: faults FOLDER LIBRARY CASES [NAME...]");
        return ExitCode::FAILURE;
    };
    match seed(Path::new(folder), library, Path::new(cases), names) {
        Ok(true) => ExitCode::SUCCESS,
        Ok(false) => ExitCode::FAILURE,
        Err(e) => {
            eprintln!("faults: {e}");
            ExitCode::FAILURE
        }
    }
}

/// The faults of a text.
fn faults_of(text: &str) -> Result<Vec<Fault>, String> {
    let mut faults: Vec<Fault> = Vec::new();
    for (at, line) in text.lines().enumerate().filter(|(_, line)| !line.is_empty() && !line.starts_with('#')) {
        let wrong = || format!("faults.txt, line {}: {line}", at + 1);
        let (word, rest) = line.split_once(' ').unwrap_or((line, ""));
        if word == "fault" {
            let (name, file) = rest.split_once(" in ").ok_or_else(wrong)?;
            if faults.iter().any(|f| f.name == name) {
                return Err(format!("{name} stands there twice"));
            }
            faults.push(Fault { name: name.to_string(), file: file.to_string(), ..Fault::default() });
            continue;
        }
        let fault = faults.last_mut().ok_or_else(wrong)?;
        match word {
            "old" if !rest.is_empty() => fault.changes.push((rest.to_string(), String::new())),
            "new" => fault.changes.last_mut().ok_or_else(wrong)?.1 = rest.to_string(),
            "equivalent" => fault.equivalent = Some(rest.to_string()),
            _ => return Err(wrong()),
        }
    }
    Ok(faults)
}

/// A text with another in the place of a part of it, which is found whatever its white space, and once.
fn changed(text: &str, old: &str, new: &str) -> Result<String, String> {
    let words: Vec<&str> = old.split_whitespace().collect();
    let mut found = Vec::new();
    for (start, _) in text.match_indices(words[0]) {
        let mut rest = &text[start..];
        let fits = words.iter().enumerate().all(|(k, word)| {
            if k > 0 && rest.starts_with(char::is_whitespace) {
                rest = rest.trim_start();
            }
            rest.strip_prefix(word).map(|after| rest = after).is_some()
        });
        if fits {
            found.push((start, text.len() - rest.len()));
        }
    }
    match found.as_slice() {
        [(start, end)] => Ok(format!("{}{new}{}", &text[..*start], &text[*end..])),
        _ => Err(format!("`{old}` stands there {} times", found.len())),
    }
}

/// Where programs are made.
struct Workshop {
    folder: PathBuf,
    library: String,
}

impl Workshop {
    /// Write every file, with the changes of a fault in one of them.
    fn lay_out(&self, fault: Option<&Fault>) -> Result<(), String> {
        let mut texts: BTreeMap<&str, String> = SOURCES.iter().chain(&OTHERS).map(|&(name, text)| (name, text.to_string())).collect();
        if let Some(fault) = fault {
            let text = SOURCES.iter().find(|(name, _)| *name == fault.file).ok_or_else(|| format!("no file {}", fault.file))?;
            let mut text = text.1.to_string();
            for (old, new) in &fault.changes {
                text = changed(&text, old, new).map_err(|e| format!("{}: {e}", fault.name))?;
            }
            texts.insert(&fault.file, text);
        }
        texts.insert("mod_supervisor", "#[path = \"supervisor.rs\"]\npub mod supervisor;\n".to_string());
        texts.insert("answers", format!("{MODULES}{ANSWERS}"));
        let leaf: String = LEAF.lines().filter(|line| !line.starts_with("//!")).map(|line| format!("{line}\n")).collect();
        texts.insert("leaf", format!("{MODULES}{LEAF_MODULES}{leaf}"));
        for (name, text) in texts {
            let path = self.folder.join(format!("{name}.rs"));
            fs::create_dir_all(path.parent().expect("a folder")).and_then(|()| fs::write(&path, text)).map_err(|e| e.to_string())?;
        }
        Ok(())
    }

    /// Compile one of the files.
    fn compile(&self, name: &str, options: &[&str]) -> Result<PathBuf, String> {
        let output = Command::new("rustc")
            .args(["--edition", "2021", "-A", "warnings", "-C", "opt-level=1", "-C", "debuginfo=0"])
            .args(options)
            .arg(format!("{name}.rs"))
            .env("OUT_DIR", &self.folder)
            .current_dir(&self.folder)
            .output()
            .map_err(|e| format!("rustc: {e}"))?;
        if output.status.success() {
            Ok(self.folder.join(name))
        } else {
            Err(format!("{name}.rs does not compile:\n{}", String::from_utf8_lossy(&output.stderr)))
        }
    }

    /// What `leaf` says of the Rust that is laid out, where it finds a difference.
    fn leaf(&self) -> Result<Option<String>, String> {
        let (search, link) = (format!("native={}", self.library), "static=exports");
        let library = self.folder.join("libproved.rlib");
        if !library.exists() {
            self.compile("proved", &["--crate-type", "rlib", "-L", &search])?;
        }
        let program = self.compile("leaf", &["--extern", "proved=libproved.rlib", "-L", &search, "-l", link])?;
        let output = Command::new(program).arg("quick").output().map_err(|e| format!("leaf: {e}"))?;
        let text = String::from_utf8_lossy(&output.stdout);
        match output.status.code() {
            Some(0) => Ok(None),
            Some(1) => {
                Ok(text.lines().last().and_then(|l| l.strip_prefix("leaf: ")?.split_once(" differs")).map(|(what, _)| what.to_string()))
            }
            _ => Err(format!("leaf: {}", output.status)),
        }
    }
}

/// What tells the Rust that is laid out from the unchanged one.
fn told_apart_by(workshop: &Workshop, sheets: &[(Sheet, Vec<u8>)]) -> Result<Option<String>, String> {
    let program = workshop.compile("answers", &[])?;
    for (sheet, answers) in sheets {
        let given = run(&program.display().to_string(), &sheet.bytes, None).map_err(|e| format!("{}: {e}", sheet.title))?;
        if let Some(d) = difference(&given, answers) {
            return Ok(Some(format!("{}, line {}", sheet.title, d.line + 1)));
        }
    }
    Ok(workshop.leaf()?.map(|what| format!("leaf, {what}")))
}

/// The sheets, generated ones first, with the reference's answers.
fn sheets(cases: &Path) -> Result<Vec<(Sheet, Vec<u8>)>, String> {
    let mut sheets = Vec::new();
    for seed in SEEDS {
        for profile in [Profile::Edge, Profile::Flight, Profile::Wild] {
            let mut sheet = Sheet::generated(profile, seed, LINES, false, false).map_err(|e| e.to_string())?;
            sheet.title = format!("{profile} {seed}");
            sheets.push(sheet);
        }
    }
    let folder = fs::read_dir(cases).map_err(|e| format!("{}: {e}", cases.display()))?;
    let mut files: Vec<PathBuf> = folder.filter_map(|entry| Some(entry.ok()?.path())).collect();
    files.sort();
    for file in files.iter().filter(|f| f.extension().is_some_and(|e| e == "sheet")) {
        let mut sheet = Sheet::read(&file.display().to_string(), false).map_err(|e| e.to_string())?;
        sheet.title = format!("case {}", file.file_stem().unwrap_or_default().to_string_lossy());
        sheets.push(sheet);
    }
    let answered = |sheet: Sheet| {
        let mut answers = Vec::new();
        answer_sheet(&mut sheet.bytes.as_slice(), &mut answers).expect("bytes at hand");
        (sheet, answers)
    };
    Ok(sheets.into_iter().map(answered).collect())
}

/// Whether every fault is told apart but those said to be equivalent.
fn seed(folder: &Path, library: &str, cases: &Path, names: &[String]) -> Result<bool, String> {
    let text = fs::read_to_string(folder.join("faults.txt")).map_err(|e| format!("faults.txt: {e}"))?;
    let faults = faults_of(&text)?;
    if let Some(name) = names.iter().find(|n| faults.iter().all(|f| f.name != **n)) {
        return Err(format!("no fault {name}"));
    }
    let library = fs::canonicalize(library).map_err(|e| format!("{library}: {e}"))?.display().to_string();
    let folder = env::current_exe().map_err(|e| e.to_string())?.with_file_name("seeded");
    fs::create_dir_all(&folder).map_err(|e| e.to_string())?;
    let workshop = Workshop { folder, library };
    let sheets = sheets(cases)?;
    workshop.lay_out(None)?;
    if let Some(by) = told_apart_by(&workshop, &sheets)? {
        return Err(format!("the unchanged Rust is told apart by {by}"));
    }
    let mut counts: BTreeMap<String, usize> = BTreeMap::new();
    let mut wrong = 0;
    let mut table = "| fault | in | text | in its place | told apart by |\n|---|---|---|---|---|\n".to_string();
    for fault in faults.iter().filter(|f| names.is_empty() || names.contains(&f.name)) {
        workshop.lay_out(Some(fault))?;
        let by = told_apart_by(&workshop, &sheets).map_err(|e| format!("{}: {e}", fault.name))?;
        let kind = by.as_deref().and_then(|by| by.split([' ', ',']).next()).unwrap_or("nothing");
        *counts.entry(kind.to_string()).or_default() += 1;
        wrong += usize::from(by.is_none() != fault.equivalent.is_some());
        let says = match (&by, &fault.equivalent) {
            (Some(by), None) => by.clone(),
            (None, Some(why)) => format!("nothing: {why}"),
            (Some(by), Some(_)) => format!("{by}, THOUGH IT IS SAID TO BE EQUIVALENT"),
            (None, None) => "NOTHING".to_string(),
        };
        println!("{}: {says}", fault.name);
        let cell = |text: &str| if text.is_empty() { "nothing".to_string() } else { format!("`{}`", text.replace('|', "\\|")) };
        let side = |f: fn(&(String, String)) -> &String| fault.changes.iter().map(|c| cell(f(c))).collect::<Vec<_>>().join("; ");
        table += &format!("| {} | {} | {} | {} | {says} |\n", fault.name, fault.file, side(|c| &c.0), side(|c| &c.1));
    }
    let path = workshop.folder.join("table.md");
    fs::write(&path, table).map_err(|e| e.to_string())?;
    let listed: Vec<String> = counts.iter().map(|(kind, n)| format!("{n} by {kind}")).collect();
    println!("{} faults, told apart: {}; {wrong} not as expected", counts.values().sum::<usize>(), listed.join(", "));
    println!("table: {}", path.display());
    Ok(wrong == 0)
}
