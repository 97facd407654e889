//! `cases write FOLDER` makes NAME.sheet and NAME.answers of every case in FOLDER's texts (*.txt); `cases check FOLDER` compares them.
//! It fails where a case stands in two texts, and where a sheet or its answers come from no text.

use reference::cases::{cases_of, Case};
use std::collections::BTreeMap;
use std::path::{Path, PathBuf};
use std::process::ExitCode;
use std::{env, fs};

fn main() -> ExitCode {
    let args: Vec<String> = env::args().skip(1).collect();
    let said = match args.iter().map(String::as_str).collect::<Vec<_>>().as_slice() {
        ["write", folder] => run(Path::new(folder), write),
        ["check", folder] => run(Path::new(folder), check),
        _ => Err("usage: cases write|check FOLDER".to_string()),
    };
    match said {
        Ok(n) => {
            println!("{n} cases of {}, each as expected", args[1]);
            ExitCode::SUCCESS
        }
        Err(e) => {
            eprintln!("{e}");
            ExitCode::FAILURE
        }
    }
}

/// Hand over each file that the texts of a folder make, with its bytes.
fn run(folder: &Path, each: fn(&Path, &[u8]) -> Result<(), String>) -> Result<usize, String> {
    let cases = cases_in(folder)?;
    let mut files: BTreeMap<PathBuf, &[u8]> = BTreeMap::new();
    for case in &cases {
        for (ending, bytes) in [("sheet", &case.sheet), ("answers", &case.answers)] {
            if files.insert(folder.join(format!("{}.{ending}", case.name)), bytes).is_some() {
                return Err(format!("{}: two cases of the name {}", folder.display(), case.name));
            }
        }
    }
    for ending in ["sheet", "answers"] {
        if let Some(path) = ending_in(folder, ending)?.iter().find(|path| !files.contains_key(*path)) {
            return Err(format!("{} comes from no text", path.display()));
        }
    }
    files.iter().try_for_each(|(path, bytes)| each(path, bytes))?;
    Ok(cases.len())
}

/// The cases of all texts of a folder.
fn cases_in(folder: &Path) -> Result<Vec<Case>, String> {
    let mut cases = Vec::new();
    for path in ending_in(folder, "txt")? {
        let text = fs::read_to_string(&path).map_err(|e| format!("{}: {e}", path.display()))?;
        cases.extend(cases_of(&text).map_err(|e| format!("{}, {e}", path.display()))?);
    }
    if cases.is_empty() {
        return Err(format!("{}: no case", folder.display()));
    }
    Ok(cases)
}

/// The files of a folder with an ending, in the order of their names.
fn ending_in(folder: &Path, ending: &str) -> Result<Vec<PathBuf>, String> {
    let said = |e: std::io::Error| format!("{}: {e}", folder.display());
    let mut paths = Vec::new();
    for entry in fs::read_dir(folder).map_err(said)? {
        paths.push(entry.map_err(said)?.path());
    }
    paths.retain(|path| path.extension().is_some_and(|e| e == ending));
    paths.sort();
    Ok(paths)
}

fn write(path: &Path, bytes: &[u8]) -> Result<(), String> {
    fs::write(path, bytes).map_err(|e| format!("{}: {e}", path.display()))
}

fn check(path: &Path, bytes: &[u8]) -> Result<(), String> {
    let there = fs::read(path).map_err(|e| format!("{}: {e}", path.display()))?;
    if there == bytes {
        Ok(())
    } else {
        Err(format!("{} is not what its text says", path.display()))
    }
}
