//! The reference: answers the sheet on standard input. `--selftest` runs document 01's worked example.

use reference::{cases, sheet};
use std::io::{self, BufWriter};
use std::process::ExitCode;

fn main() -> ExitCode {
    if std::env::args().nth(1).as_deref() == Some("--selftest") {
        return match cases::worked_example() {
            Ok(()) => {
                println!("worked example: as in document 01");
                ExitCode::SUCCESS
            }
            Err(e) => {
                eprintln!("worked example: {e}");
                ExitCode::FAILURE
            }
        };
    }
    let mut output = BufWriter::with_capacity(64 * 1024, io::stdout().lock());
    match sheet::answer_sheet(&mut io::stdin().lock(), &mut output) {
        Ok(()) => ExitCode::SUCCESS,
        Err(e) => {
            eprintln!("reference: {e}");
            ExitCode::FAILURE
        }
    }
}
