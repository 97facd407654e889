//! `bench FIRST SECOND SHEET ROUNDS` runs both programs on a sheet in turn, so many times each, and prints the ratio of their median times and
//! the peak memory of each. Standard input is the file, answers go to /dev/null.

use reference::bench::{median_and_least, shown_ratios};
use reference::compare::{difference, run};
use std::fs::{self, File};
use std::io::{self, Write};
use std::process::{Command, ExitCode, Stdio};
use std::time::{Duration, Instant};
use std::{env, thread};

/// `struct rusage` of Linux on 64 bits: the two times as seconds and microseconds, then fourteen counts.
#[repr(C)]
#[derive(Default)]
struct Usage {
    user: [i64; 2],
    system: [i64; 2],
    counts: [i64; 14],
}

extern "C" {
    fn wait4(pid: i32, status: *mut i32, options: i32, usage: *mut Usage) -> i32;
}

/// Seconds of one run: from start to end, and of the processor.
#[derive(Clone, Copy)]
struct Times {
    wall: f64,
    processor: f64,
}

fn main() -> ExitCode {
    let args: Vec<String> = env::args().skip(1).collect();
    let [first, second, sheet, rounds] = args.as_slice() else {
        eprintln!("usage: bench FIRST SECOND SHEET ROUNDS");
        return ExitCode::FAILURE;
    };
    let rounds = match rounds.parse() {
        Ok(rounds) if rounds > 0 => rounds,
        _ => {
            eprintln!("bench: {rounds} is no number of rounds");
            return ExitCode::FAILURE;
        }
    };
    match bench([first, second], sheet, rounds) {
        Ok(()) => ExitCode::SUCCESS,
        Err(e) => {
            eprintln!("bench: {e}");
            ExitCode::FAILURE
        }
    }
}

fn bench(programs: [&str; 2], sheet: &str, rounds: usize) -> io::Result<()> {
    let bytes = fs::read(sheet)?;
    let [first, second] = programs.map(|program| run(program, &bytes, None));
    let (first, second) = (first?, second?);
    if let Some(d) = difference(&first, &second) {
        return Err(io::Error::other(format!("line {} of {sheet} is answered differently", d.line + 1)));
    }
    let lines = first.iter().filter(|&&b| b == b'\n').count();
    println!("bench: {sheet}: {lines} lines, {} bytes, answered alike; {rounds} rounds in turn", bytes.len());
    let mut times: [Vec<Times>; 2] = Default::default();
    for _ in 0..rounds {
        for (program, times) in programs.iter().zip(&mut times) {
            times.push(time(program, sheet)?);
        }
    }
    let wall = times.each_ref().map(|t| median_and_least(t.iter().map(|t| t.wall).collect()));
    let processor = times.each_ref().map(|t| median_and_least(t.iter().map(|t| t.processor).collect()));
    for (k, program) in programs.iter().enumerate() {
        let shown = |(median, least): (f64, f64)| format!("median {:.1} ms (least {:.1})", median * 1e3, least * 1e3);
        let memory = peak_memory(program, &bytes)?;
        println!("bench: {program}: {}, of the processor {}; peak memory {memory} kB", shown(wall[k]), shown(processor[k]));
    }
    println!("bench: first to second: {}", shown_ratios(wall[0], wall[1]));
    println!("bench: of the processor: {}", shown_ratios(processor[0], processor[1]));
    Ok(())
}

/// One run of a program.
fn time(program: &str, sheet: &str) -> io::Result<Times> {
    let input = File::open(sheet)?;
    let start = Instant::now();
    let child = Command::new(program).stdin(input).stdout(Stdio::null()).spawn()?;
    let (mut status, mut usage) = (0, Usage::default());
    let pid = child.id() as i32;
    // SAFETY: both pointers are to values of the types that wait4 fills in; nothing else waits for the child.
    if unsafe { wait4(pid, &mut status, 0, &mut usage) } != pid {
        return Err(io::Error::last_os_error());
    }
    let wall = start.elapsed().as_secs_f64();
    if status != 0 {
        return Err(io::Error::other(format!("{program} ended with status {status}")));
    }
    let seconds = |t: [i64; 2]| t[0] as f64 + t[1] as f64 * 1e-6;
    Ok(Times { wall, processor: seconds(usage.user) + seconds(usage.system) })
}

/// The greatest resident memory of a program in kB: read until it has the whole sheet and waits for more, or has ended.
fn peak_memory(program: &str, sheet: &[u8]) -> io::Result<u64> {
    let mut child = Command::new(program).stdin(Stdio::piped()).stdout(Stdio::null()).spawn()?;
    let mut input = child.stdin.take().expect("piped");
    input.write_all(sheet)?;
    let mut asleep = 0;
    let mut peak = None;
    while asleep < 50 {
        thread::sleep(Duration::from_millis(2));
        let status = fs::read_to_string(format!("/proc/{}/status", child.id()))?;
        if status.contains("\nState:\tZ") {
            break;
        }
        asleep = if status.contains("\nState:\tS") { asleep + 1 } else { 0 };
        peak = status.lines().find_map(|line| line.strip_prefix("VmHWM:")?.trim().strip_suffix(" kB")?.parse().ok()).or(peak);
    }
    drop(input);
    child.wait()?;
    peak.ok_or_else(|| io::Error::other("no VmHWM in /proc"))
}
