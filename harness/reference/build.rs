//! Applies the patches to the unchanged copies of the Rust under harness/relay and hands the results to the compiler as modules.

use std::path::{Path, PathBuf};
use std::{env, fs};

/// The copies: the module each becomes, and its place below harness/relay.
const FILES: [(&str, &str); 5] = [
    ("relay_fsm", "crates/relay-fsm/plain/src/lib.rs"),
    ("relay_fsafe", "crates/relay-fsafe/plain/src/lib.rs"),
    ("relay_batt", "crates/relay-batt/plain/src/lib.rs"),
    ("relay_preflight", "crates/relay-preflight/plain/src/lib.rs"),
    ("supervisor", "crates/falcon-core/plain/src/supervisor.rs"),
];

fn main() {
    let harness = PathBuf::from(env::var("CARGO_MANIFEST_DIR").unwrap()).join("..").canonicalize().unwrap();
    let out = PathBuf::from(env::var("OUT_DIR").unwrap());
    println!("cargo::rerun-if-changed={}", harness.join("relay").display());
    println!("cargo::rerun-if-changed={}", harness.join("patches").display());
    println!("cargo::rustc-check-cfg=cfg(kani)");

    let mut patches = patches_of(&harness.join("patches"));
    for (feature, folder) in [("COVER", "patches/cover"), ("TIMED", "patches/timed")] {
        if env::var(format!("CARGO_FEATURE_{feature}")).is_ok() {
            patches.extend(patches_of(&harness.join(folder)));
        }
    }
    let mut names = Vec::new();
    let mut applied = 0;
    for (module, place) in FILES {
        let mut text = fs::read_to_string(harness.join("relay").join(place)).unwrap();
        for (name, patch) in &patches {
            if patch.contains(&format!("\n--- a/{place}\n")) {
                text = apply(&text, patch).unwrap_or_else(|e| panic!("{name}: {e}"));
                applied += 1;
            }
        }
        collect_names(&text, &mut names);
        let file = out.join(format!("{module}.rs"));
        fs::write(&file, text).unwrap();
        let attributes = "#[allow(unused_attributes, dead_code)]";
        let line = format!("{attributes}\n#[path = {:?}]\npub mod {module};\n", file);
        fs::write(out.join(format!("mod_{module}.rs")), line).unwrap();
    }
    assert_eq!(applied, patches.len(), "a patch names none of the files");
    fs::write(out.join("cover_names.rs"), format!("{names:?}")).unwrap();
}

/// The patches of a folder in the order of their names.
fn patches_of(folder: &Path) -> Vec<(String, String)> {
    let mut all = Vec::new();
    for entry in fs::read_dir(folder).unwrap() {
        let path = entry.unwrap().path();
        if path.extension().is_some_and(|e| e == "patch") {
            all.push((path.display().to_string(), fs::read_to_string(&path).unwrap()));
        }
    }
    all.sort();
    all
}

/// The text after a unified diff; every line of context and every line taken out must stand where the diff says.
fn apply(text: &str, patch: &str) -> Result<String, String> {
    let old: Vec<&str> = text.split_inclusive('\n').collect();
    let mut new = String::new();
    let mut at = 0;
    let mut inside = false;
    for line in patch.split_inclusive('\n') {
        if let Some(head) = line.strip_prefix("@@ -") {
            let start = head.split([',', ' ']).next().and_then(|s| s.parse::<usize>().ok());
            let start = start.ok_or_else(|| format!("a hunk without a line number: {line}"))? - 1;
            if start < at || start > old.len() {
                return Err(format!("a hunk out of order: {line}"));
            }
            new.extend(old[at..start].iter().copied());
            at = start;
            inside = true;
        } else if !inside {
            continue;
        } else if let Some(added) = line.strip_prefix('+') {
            new.push_str(added);
        } else {
            let (kept, taken) = (line.strip_prefix(' '), line.strip_prefix('-'));
            let expected = kept.or(taken).ok_or_else(|| format!("no line of a diff: {line}"))?;
            if old.get(at) != Some(&expected) {
                return Err(format!("line {} is not {expected}", at + 1));
            }
            if kept.is_some() {
                new.push_str(expected);
            }
            at += 1;
        }
    }
    new.extend(old[at..].iter().copied());
    Ok(new)
}

/// The names of the branches that a cover patch counts, in the order of the text.
fn collect_names(text: &str, names: &mut Vec<String>) {
    for (call, both) in [("cover::hit(\"", false), ("cover::cond(\"", true)] {
        for part in text.split(call).skip(1) {
            let name = part.split('"').next().unwrap();
            if both {
                names.push(format!("{name}: true"));
                names.push(format!("{name}: false"));
            } else {
                names.push(name.to_string());
            }
        }
    }
}
