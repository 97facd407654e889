//! `timed < SHEET` answers a sheet as `reference` does, for timing: 64 KiB buffers, one pass over the bytes of a line, no allocation for a
//! line, the report split off `step` (patches/timed) instead of a copy of the supervisor before every tick.

use reference::sheet::{write_fields, Shuttle, MAX_FIELDS, WIDEST_ANSWER, WIDTH};
use std::io::{self, Read, Write};
use std::process::ExitCode;

/// Bytes of each buffer.
const BUFFER: usize = 64 * 1024;
/// Bytes of the widest answer with its newline.
const ANSWER: usize = WIDEST_ANSWER * WIDTH + 1;

fn main() -> ExitCode {
    match answer_sheet(&mut io::stdin().lock(), &mut io::stdout().lock()) {
        Ok(()) => ExitCode::SUCCESS,
        Err(e) => {
            eprintln!("timed: {e}");
            ExitCode::FAILURE
        }
    }
}

/// What the bytes begin with.
enum Scanned {
    /// A line of so many numbers, and its length with the newline.
    Numbers(usize, usize),
    /// A line that refusal 2 fits, and its length with the newline.
    Broken(usize),
    /// A line whose newline is not there yet.
    Cut,
}

/// One field: spaces, then a decimal number below 2^32 without leading zeros.
#[inline(always)]
fn read_field(field: &[u8; WIDTH]) -> Option<u32> {
    let mut at = 0;
    while field[at] == b' ' {
        at += 1;
        if at == WIDTH {
            return None;
        }
    }
    if field[at] == b'0' && at + 1 < WIDTH {
        return None;
    }
    let mut n = 0u64;
    for &b in &field[at..] {
        let digit = b.wrapping_sub(b'0');
        if digit > 9 {
            return None;
        }
        n = n * 10 + u64::from(digit);
    }
    u32::try_from(n).ok()
}

/// The numbers of the line that the bytes begin with, read up to its newline without looking for that first.
fn scan(bytes: &[u8], numbers: &mut [u32; MAX_FIELDS]) -> Scanned {
    let (mut at, mut count) = (0, 0);
    while let Some(field) = bytes[at..].first_chunk::<WIDTH>() {
        if field[0] == b'\n' {
            break;
        }
        match read_field(field) {
            Some(number) if count < MAX_FIELDS => numbers[count] = number,
            _ => return broken(bytes, at),
        }
        count += 1;
        at += WIDTH;
    }
    if count > 0 && bytes.get(at) == Some(&b'\n') {
        Scanned::Numbers(count, at + 1)
    } else {
        broken(bytes, at)
    }
}

/// A line that is broken from some place on.
#[cold]
fn broken(bytes: &[u8], from: usize) -> Scanned {
    match bytes[from..].iter().position(|&b| b == b'\n') {
        Some(more) => Scanned::Broken(from + more + 1),
        None => Scanned::Cut,
    }
}

/// Answer every line of the input: a last line without newline counts, a newline at the very end begins no further line.
fn answer_sheet(input: &mut impl Read, output: &mut impl Write) -> io::Result<()> {
    let mut shuttle = Shuttle::new();
    let mut numbers = [0; MAX_FIELDS];
    let mut buffer = vec![0; BUFFER + 1];
    let mut answers = Vec::with_capacity(BUFFER);
    let mut have = 0;
    let mut too_long = false;
    loop {
        let got = match input.read(&mut buffer[have..BUFFER]) {
            Ok(got) => got,
            Err(e) if e.kind() == io::ErrorKind::Interrupted => continue,
            Err(e) => return Err(e),
        };
        have += got;
        if got == 0 && (have > 0 || too_long) {
            buffer[have] = b'\n';
            have += 1;
        }
        let mut at = 0;
        loop {
            let scanned = if too_long { broken(&buffer[at..have], 0) } else { scan(&buffer[at..have], &mut numbers) };
            let (line, length) = match scanned {
                Scanned::Numbers(count, length) => (Some(&numbers[..count]), length),
                Scanned::Broken(length) => (None, length),
                Scanned::Cut => break,
            };
            at += length;
            too_long = false;
            if answers.len() + ANSWER > BUFFER {
                output.write_all(&answers)?;
                answers.clear();
            }
            write_fields(&mut answers, &shuttle.answer_numbers(line));
            answers.push(b'\n');
        }
        too_long |= have - at > MAX_FIELDS * WIDTH;
        if too_long {
            at = have;
        }
        buffer.copy_within(at..have, 0);
        have -= at;
        if got == 0 {
            output.write_all(&answers)?;
            return output.flush();
        }
    }
}
