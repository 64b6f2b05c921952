//! Single lines of a script: the form of a call, and near misses of the grammar.
//! No line here carries its own line feed, but a near miss may hold one inside.

use crate::random::Random;
use second::core::{Call, PRIVATE};

/// The form of a call. A type that is neither 1 nor 2 has no form.
pub fn line_of(call: &Call) -> Vec<u8> {
    let line = match *call {
        Call::Open { threshold, discipline, seed } => {
            format!("(open {} {} {})", threshold, discipline, seed)
        }
        Call::Join { id, kind, rate, burst } => {
            format!("(join {} ({}))", id, terms(kind, rate, burst))
        }
        Call::Change { id, kind, rate, burst } => {
            format!("(change {} ({}))", id, terms(kind, rate, burst))
        }
        Call::Leave { id } => format!("(leave {})", id),
        Call::Load { id, count } => format!("(load {} {})", id, count),
        Call::Arrive { id, handle, length } => {
            format!("(arrive {} (packet {} {}))", id, handle, length)
        }
        Call::Tick => "(tick)".to_string(),
    };
    line.into_bytes()
}

fn terms(kind: u32, rate: u32, burst: u32) -> String {
    if kind == PRIVATE {
        format!("private {}", rate)
    } else {
        format!("indifferent {} {}", rate, burst)
    }
}

/// The words kept for later, and others that look like them.
const KEPT_WORDS: [&str; 18] = [
    "(open 1024 0 1 7)",
    "(load 1 0 5)",
    "(load 1 1 5)",
    "(arrive 1 0 (packet 1 64))",
    "(arrive 1 1 (packet 1 64))",
    "(minute 5)",
    "(minute 4294967296)",
    "(windows 1 5 (1 2))",
    "(windows 1 5 (1 2) (3 4))",
    "(windows 1 5)",
    "(join 1 (private 5) 2)",
    "(join 1 (indifferent 5 2) 2)",
    "(join 1 (group 5))",
    "(change 1 (group 5))",
    "(state 1024 0 1)",
    "(private 5 0)",
    "(counts 1 0)",
    "(wait 1 5 64)",
];

/// A line one step away from `line`; it may by chance be a form again.
pub fn near_miss(random: &mut Random, line: &[u8]) -> Vec<u8> {
    match random.below(8) {
        0 | 1 => one_byte(random, line),
        2 | 3 => one_blank(random, line),
        4 | 5 => one_number(random, line),
        6 => random.pick(&KEPT_WORDS).as_bytes().to_vec(),
        _ => whole_line(random, line),
    }
}

/// A byte of a kind that a reader may take wrongly.
pub fn odd_byte(random: &mut Random) -> u8 {
    match random.below(6) {
        0 => random.word() as u8,
        1 => random.between(128, 255) as u8,
        2 => random.pick(&[0, 9, 10, 11, 12, 13, 26, 27, 127]),
        3 => random.pick(b"()  "),
        // The neighbours of the digits and of the brackets among the bytes.
        4 => random.pick(b"/:'*+-,.#"),
        _ => random.pick(b"0123456789"),
    }
}

/// A byte deleted, inserted, doubled, replaced, its case changed, or swapped with the next.
fn one_byte(random: &mut Random, line: &[u8]) -> Vec<u8> {
    let mut missed = line.to_vec();
    if missed.is_empty() {
        return vec![odd_byte(random)];
    }
    let place = random.below(missed.len());
    match random.below(6) {
        0 => {
            missed.remove(place);
        }
        1 => missed.insert(place, odd_byte(random)),
        2 => missed.insert(place, missed[place]),
        3 => missed[place] = odd_byte(random),
        4 => missed[place] ^= 32,
        _ => missed.swap(place, (place + 1) % line.len()),
    }
    missed
}

/// A blank doubled, left out or made another white byte, or a blank where none belongs.
fn one_blank(random: &mut Random, line: &[u8]) -> Vec<u8> {
    let blanks: Vec<usize> = (0..line.len()).filter(|&place| line[place] == b' ').collect();
    let mut missed = line.to_vec();
    if blanks.is_empty() || random.one_in(4) {
        missed.insert(random.below(line.len() + 1), b' ');
        return missed;
    }
    let place = random.pick(&blanks);
    match random.below(4) {
        0 => missed.insert(place, b' '),
        1 => {
            missed.remove(place);
        }
        _ => missed[place] = random.pick(&[9, 11, 12, 13, 0, 0xA0, b'_', b',']),
    }
    missed
}

/// What a lenient reader may take for a number; the last is an Arabic-Indic digit.
const WRITINGS: [&str; 9] = ["", "00", "-0", "0x1", "1.0", "1e1", "#", "(1)", "\u{0661}"];

/// One number of the line in another writing; a line without a number gets one.
fn one_number(random: &mut Random, line: &[u8]) -> Vec<u8> {
    let runs = digit_runs(line);
    if runs.is_empty() {
        return [b"(leave ", big_number(random).as_bytes(), b")"].concat();
    }
    let (start, end) = random.pick(&runs);
    let digits = String::from_utf8_lossy(&line[start..end]).into_owned();
    let other = match random.below(14) {
        0 => format!("0{}", digits),
        1 => format!("{}{}", "0".repeat(random.below(12)), digits),
        2 => format!("+{}", digits),
        3 => format!("-{}", digits),
        4 => format!("{} {}", digits, digits),
        5 => random.pick(&WRITINGS).to_string(),
        _ => big_number(random),
    };
    [&line[..start], other.as_bytes(), &line[end..]].concat()
}

/// The places of the numbers of a line, each with its first place and the one behind its last.
pub fn digit_runs(line: &[u8]) -> Vec<(usize, usize)> {
    let mut runs = Vec::new();
    let mut start = 0;
    while start < line.len() {
        let digits = line[start..].iter().take_while(|byte| byte.is_ascii_digit()).count();
        if digits > 0 {
            runs.push((start, start + digits));
        }
        start += digits + 1;
    }
    runs
}

/// Numbers round 2^32 and round 2^64, and numbers whose low 32 or 64 bits are small, so that a
/// reader that lets a sum run over takes them for small ones.
pub fn big_number(random: &mut Random) -> String {
    let small = u128::from(random.between(0, 66));
    match random.below(8) {
        0 => (4_294_967_290 + u128::from(random.between(0, 12))).to_string(),
        1 => (18_446_744_073_709_551_610 + u128::from(random.between(0, 12))).to_string(),
        2 => ((u128::from(random.between(1, 9)) << 32) + small).to_string(),
        3 => ((u128::from(random.between(1, 9)) << 64) + small).to_string(),
        4 => ((u128::from(random.next()) << 32) + small).to_string(),
        5 => format!("{}{}", random.pick(&["4294967295", "18446744073709551615"]), random.below(10)),
        6 => format!("1{}", "0".repeat(random.below(40))),
        _ => many_digits(random),
    }
}

/// 1 to 1000 digits, the first one not 0.
fn many_digits(random: &mut Random) -> String {
    let most = random.pick(&[1, 9, 10, 11, 20, 100, 1000]);
    let count = 1 + random.below(most);
    let mut digits = String::new();
    for place in 0..count {
        let low = if place == 0 { 1 } else { 0 };
        digits.push_str(&random.between(low, 9).to_string());
    }
    digits
}

/// The line cut, doubled, emptied, or with something before or behind it.
fn whole_line(random: &mut Random, line: &[u8]) -> Vec<u8> {
    match random.below(11) {
        0 | 1 => Vec::new(),
        2 => [line, b"\r"].concat(),
        3 => [line, b" "].concat(),
        4 => [b" ", line].concat(),
        5 => [line, line].concat(),
        6 => [line, b" ", line].concat(),
        7 => line[..random.below(line.len() + 1)].to_vec(),
        8 => [line, b")"].concat(),
        9 => [b"(", line, b")"].concat(),
        _ => line.to_ascii_uppercase(),
    }
}
