//! `generate PROFILE SEED LINES [--long] [--no-records] [--no-raised]` writes a sheet; profiles are wild, flight and edge. With --long lines of a megabyte
//! or more stand in it, with --no-records no line of kind 8, with --no-raised none of kind 10 and no pad on a roof.

use reference::generate::{generate, Among, Profile};
use std::io;
use std::process::ExitCode;

fn main() -> ExitCode {
    const OPTIONS: [&str; 3] = ["--long", "--no-records", "--no-raised"];
    let (options, args): (Vec<String>, Vec<String>) = std::env::args().skip(1).partition(|a| OPTIONS.contains(&a.as_str()));
    let option = |name: &str| options.iter().any(|o| o == name);
    let parsed = match args.as_slice() {
        [profile, seed, lines] => Profile::of(profile).zip(seed.parse().ok()).zip(lines.parse().ok()),
        _ => None,
    };
    let Some(((profile, seed), lines)) = parsed else {
        eprintln!("usage: generate wild|flight|edge SEED LINES [--long] [--no-records] [--no-raised]");
        return ExitCode::FAILURE;
    };
    let among = Among { long: option("--long"), records: !option("--no-records"), raised: !option("--no-raised") };
    match generate(profile, seed, lines, among, &mut io::stdout().lock()) {
        Ok(()) => ExitCode::SUCCESS,
        Err(e) => {
            eprintln!("generate: {e}");
            ExitCode::FAILURE
        }
    }
}
