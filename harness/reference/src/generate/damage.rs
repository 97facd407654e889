//! Damaged lines of every sort.

use crate::random::Random;
use crate::sheet::write_fields;

/// A damaged line made from a sound one; of kind 10 only where pads are raised.
pub fn damaged(r: &mut Random, numbers: &[u32], line: &[u8], raised: bool) -> Vec<u8> {
    let kinds: &[u32] = if raised { &[0, 7, 8, 9, 10, 11, 100, 4294967295] } else { &[0, 7, 8, 9, 11, 100, 4294967295] };
    match r.below(16) {
        0 => cut(r, line),
        1 => longer(r, line),
        2 | 3 => bad_byte(r, line),
        4 => bad_field(r, line),
        5 => with(r, numbers, |r, n| n[0] = r.pick(kinds)),
        6 => with(r, numbers, |r, n| {
            if r.one_in(2) {
                n.push(r.pick(&[0, 1, 4294967295]));
            } else if n.len() > 1 {
                n.pop();
            }
        }),
        7 => numbers_line(r.pick(&[
            &[5u32, 1431655766, 0, 0] as &[u32],
            &[5, 2863311531, 0],
            &[6, 1073741824],
            &[6, 3221225473, 0, 0, 0, 0],
            &[6, 2147483648, 0, 0, 0, 0],
            &[5],
            &[6],
            &[5, 1],
            &[5, 4294967295],
            &[6, 1],
            &[5, 0, 0],
            &[2],
            &[1],
        ])),
        8 => numbers_line(&[3, r.below(4) as u32]),
        9 => {
            let event = r.below(14) as u32;
            numbers_line(&[4, event, r.below(3) as u32, r.below(3) as u32])
        }
        10 => out_of_range(r),
        11 => with(r, numbers, |r, n| {
            let at = r.below(n.len() as u64) as usize;
            n[at] = r.pick(&[2, 3, 2097151, 2097152, 2147483648, 4294967295]);
        }),
        12 => too_long(r, line),
        13 => numbers_line(r.pick(&[
            &[5u32, 1, 0, 0, 3204448256] as &[u32],
            &[5, 1, 0, 0, 1056964608],
            &[5, 1, 2143289344, 0, 3240099840],
            &[5, 1, 0, 2139095040, 3240099840],
            &[5, 2, 0, 0, 3240099840, 0, 0, 3290431488],
        ])),
        14 => Vec::new(),
        _ => {
            let length = r.below(40) as usize;
            (0..length).map(|_| not_newline(r.bits() as u8)).collect()
        }
    }
}

/// A line of a kind that is asked alone, 7 or 8; once in so many times with a field too many, or damaged. None of these changes anything.
pub fn asked_alone(r: &mut Random, kind: u32, damage_one_in: u64) -> Vec<u8> {
    let line = numbers_line(&[kind]);
    if !r.one_in(damage_one_in) {
        return line;
    }
    match r.below(6) {
        0 => cut(r, &line),
        1 => longer(r, &line),
        2 => bad_byte(r, &line),
        3 => bad_field(r, &line),
        _ => numbers_line(&[kind, r.pick(&[0, 1, kind, 4294967295])]),
    }
}

/// An opening that is refused: without its last fields or with one too many, or with a mask or the flag out of its range.
pub fn refused_opening(r: &mut Random, numbers: &[u32; 10]) -> Vec<u8> {
    if r.one_in(2) {
        let mut n = numbers.to_vec();
        n.push(0);
        n.truncate(r.pick(&[1, 2, 9, 9, 11]));
        return numbers_line(&n);
    }
    let mut n = *numbers;
    let (at, value) = r.pick(&BAD_OPENINGS);
    n[at] = value;
    numbers_line(&n)
}

fn not_newline(b: u8) -> u8 {
    if b == b'\n' {
        b' '
    } else {
        b
    }
}

fn numbers_line(numbers: &[u32]) -> Vec<u8> {
    let mut line = Vec::new();
    write_fields(&mut line, numbers);
    line
}

fn with(r: &mut Random, numbers: &[u32], change: impl FnOnce(&mut Random, &mut Vec<u32>)) -> Vec<u8> {
    let mut changed = numbers.to_vec();
    change(r, &mut changed);
    numbers_line(&changed)
}

/// Some bytes less.
fn cut(r: &mut Random, line: &[u8]) -> Vec<u8> {
    line[..r.below(line.len() as u64) as usize].to_vec()
}

/// A few bytes more.
fn longer(r: &mut Random, line: &[u8]) -> Vec<u8> {
    let mut longer = line.to_vec();
    for _ in 0..=r.below(12) {
        let at = r.below(longer.len() as u64 + 1) as usize;
        longer.insert(at, r.pick(b" 0123456789"));
    }
    longer
}

/// One byte another.
fn bad_byte(r: &mut Random, line: &[u8]) -> Vec<u8> {
    let mut bad = line.to_vec();
    let at = r.below(bad.len() as u64) as usize;
    let any = not_newline(r.bits() as u8);
    bad[at] =
        r.pick(&[any, b'\t', b'\r', 0, 0x80, 0xA0, 0xFF, b'+', b'-', b'0', b' ', b'/', b':', b'.', b'1', b'9', 0x30 | 0x80, 0x20 | 0x80]);
    bad
}

/// One field that is no number of the sheet, or a great one.
fn bad_field(r: &mut Random, line: &[u8]) -> Vec<u8> {
    let mut bad = line.to_vec();
    let at = r.below(bad.len() as u64 / 11) as usize * 11;
    let field: &[u8; 11] = r.pick(&[
        b"         01",
        b"00000000000",
        b"          +",
        b"         +1",
        b"         -0",
        b"           ",
        b"1          ",
        b"0          ",
        b"        1 1",
        b"       0x10",
        b" 4294967296",
        b" 4294967295",
        b" 4294967300",
        b"99999999999",
        b"18446744073",
        b"42949672960",
        b" 9999999999",
        b"04294967295",
        b"        1\r ",
        b"         1\r",
        b"\t         1",
        b"         1\0",
        b"         1\xB2",
        b"       1e05",
        b"        1.0",
    ]);
    bad[at..at + 11].copy_from_slice(field);
    bad
}

/// Places of an opening and numbers out of their range.
const BAD_OPENINGS: [(usize, u32); 6] = [(7, 2097152), (8, 2097152), (9, 2), (7, 4294967295), (8, 2147483648), (9, 4294967295)];

/// A tick or an opening with one number out of its range.
fn out_of_range(r: &mut Random) -> Vec<u8> {
    if r.one_in(3) {
        let mut n = [1, 0, 0, 0, 1120403456, 1092616192, 1101529088, 0, 0, 0];
        let (at, value) = r.pick(&BAD_OPENINGS);
        n[at] = value;
        return numbers_line(&n);
    }
    let mut n = [0u32; 18];
    n[0] = 2;
    let choices: [&[(usize, u32)]; 12] = [
        &[(11, 2)],
        &[(12, 2)],
        &[(13, 2)],
        &[(14, 4294967295)],
        &[(15, 3)],
        &[(16, 1)],
        &[(16, 2147483648)],
        &[(17, 1)],
        &[(17, 2147483648)],
        &[(15, 1), (17, 1)],
        &[(15, 1), (16, 1103101952), (17, 2147483648)],
        &[(15, 3), (16, 1103101952), (17, 1)],
    ];
    for &(at, value) in r.pick(&choices) {
        n[at] = value;
    }
    numbers_line(&n)
}

/// A line around and over the greatest length; rarely some 100,000 bytes.
fn too_long(r: &mut Random, line: &[u8]) -> Vec<u8> {
    let length = match r.below(40) {
        0 => 60_000 + r.below(80_000) as usize,
        1 => 2_000 + r.below(3_000) as usize,
        2..=9 => 1_430,
        _ => 1_420 + r.below(33) as usize,
    };
    of_length(r, line, length)
}

/// A line of a megabyte to three, now and then of a whole number of fields or of buffers of 64 KiB.
pub fn megabytes(r: &mut Random, line: &[u8]) -> Vec<u8> {
    let length = 1_000_000 + r.below(2_000_000) as usize;
    let length = match r.below(4) {
        0 => length / 11 * 11,
        1 => (length / 65_536 + 1) * 65_536 - r.below(3) as usize,
        _ => length,
    };
    of_length(r, line, length)
}

/// A line of so many bytes: sound lines and fields one after the other.
fn of_length(r: &mut Random, line: &[u8], length: usize) -> Vec<u8> {
    let mut long = Vec::with_capacity(length + line.len());
    while long.len() < length {
        match r.below(3) {
            0 => long.extend_from_slice(line),
            1 => long.extend_from_slice(b"          0"),
            _ => long.extend_from_slice(b" 4294967295"),
        }
    }
    long.truncate(length);
    long
}
