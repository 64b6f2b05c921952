//! "Script and printout" of paper 01, on raw bytes, with the handles of S-6 (paper 02), and the
//! line of S-14's figure.

use crate::core::{Answer, Call, Core, Outcome, INDIFFERENT, PRIVATE};

/// Paper 02, S-6: "Handles go to 18446744073709551615". "an older core meeting a longer handle
/// refuses it with 17 in a script": it has its own limit here, and differs in nothing else.
pub const LARGEST_HANDLE: u64 = 18446744073709551615;

/// One line read: a form, or the number (16 or 17) that the line is answered with.
#[derive(Debug, Clone, PartialEq, Eq)]
pub enum Line {
    Form(Call),
    Refused(u32),
}

/// "the forms are ..., each in round brackets, where K is `private R` (burst 0) or
/// `indifferent R B`." A `#` stands for a number; every other byte stands for itself, so that
/// there is "One blank between parts, none elsewhere".
const OPEN: &[u8] = b"(open # # #)";
const JOIN_PRIVATE: &[u8] = b"(join # (private #))";
const JOIN_INDIFFERENT: &[u8] = b"(join # (indifferent # #))";
const CHANGE_PRIVATE: &[u8] = b"(change # (private #))";
const CHANGE_INDIFFERENT: &[u8] = b"(change # (indifferent # #))";
const LEAVE: &[u8] = b"(leave #)";
const LOAD: &[u8] = b"(load # #)";
const ARRIVE: &[u8] = b"(arrive # (packet # #))";
const TICK: &[u8] = b"(tick)";

const SHAPES: [&[u8]; 9] = [
    OPEN,
    JOIN_PRIVATE,
    JOIN_INDIFFERENT,
    CHANGE_PRIVATE,
    CHANGE_INDIFFERENT,
    LEAVE,
    LOAD,
    ARRIVE,
    TICK,
];

/// Reads one line, without its line feed. "16 | not a form of the grammar", then 17, "right shape,
/// but a number above" its limit.
pub fn parse(line: &[u8]) -> Line {
    for shape in SHAPES {
        if let Some(numbers) = numbers_in(shape, line) {
            return match call(shape, &numbers) {
                Some(call) => Line::Form(call),
                None => Line::Refused(17),
            };
        }
    }
    Line::Refused(16)
}

/// If the whole line has the shape, the digits of its numbers in order; otherwise nothing.
pub(crate) fn numbers_in<'a>(shape: &[u8], line: &'a [u8]) -> Option<Vec<&'a [u8]>> {
    let mut numbers = Vec::new();
    let mut rest = line;
    for &part in shape {
        if part == b'#' {
            let length = number_length(rest)?;
            numbers.push(&rest[..length]);
            rest = &rest[length..];
        } else {
            if rest.first() != Some(&part) {
                return None;
            }
            rest = &rest[1..];
        }
    }
    if rest.is_empty() {
        Some(numbers)
    } else {
        None
    }
}

/// "A number has no sign and no leading zero, except 0 itself." The count of digits in front,
/// if they are a number.
fn number_length(rest: &[u8]) -> Option<usize> {
    let mut length = 0;
    while length < rest.len() && rest[length].is_ascii_digit() {
        length += 1;
    }
    if length == 0 {
        return None;
    }
    if rest[0] == b'0' && length > 1 {
        return None;
    }
    Some(length)
}

/// The value of some digits, or nothing if it is above the limit. This is looked at behind each
/// digit, so that nothing wraps, however many there are.
fn value_up_to(limit: u64, digits: &[u8]) -> Option<u64> {
    let mut sum: u128 = 0;
    for &digit in digits {
        sum = sum * 10 + u128::from(digit - b'0');
        if sum > u128::from(limit) {
            return None;
        }
    }
    Some(sum as u64) // at most the limit
}

/// The value of any number but a handle, or nothing if it is "above 4294967295". Paper 02, S-6:
/// "Number 17 uses that limit for handles and the former one elsewhere."
pub(crate) fn value(digits: &[u8]) -> Option<u32> {
    value_up_to(4294967295, digits).map(|value| value as u32)
}

/// The value of a handle, or nothing if it is above "that limit".
fn handle(digits: &[u8]) -> Option<u64> {
    value_up_to(LARGEST_HANDLE, digits)
}

/// The call that a shape with its numbers stands for, or nothing if one of them is above its limit;
/// "`private R` (burst 0)".
fn call(shape: &[u8], numbers: &[&[u8]]) -> Option<Call> {
    let n = |place: usize| value(numbers[place]);
    Some(match shape {
        OPEN => Call::Open { threshold: n(0)?, discipline: n(1)?, seed: n(2)? },
        JOIN_PRIVATE => Call::Join { id: n(0)?, kind: PRIVATE, rate: n(1)?, burst: 0 },
        JOIN_INDIFFERENT => {
            Call::Join { id: n(0)?, kind: INDIFFERENT, rate: n(1)?, burst: n(2)? }
        }
        CHANGE_PRIVATE => Call::Change { id: n(0)?, kind: PRIVATE, rate: n(1)?, burst: 0 },
        CHANGE_INDIFFERENT => {
            Call::Change { id: n(0)?, kind: INDIFFERENT, rate: n(1)?, burst: n(2)? }
        }
        LEAVE => Call::Leave { id: n(0)? },
        LOAD => Call::Load { id: n(0)?, count: n(1)? },
        ARRIVE => Call::Arrive { id: n(0)?, handle: handle(numbers[1])?, length: n(2)? },
        TICK => Call::Tick,
        _ => panic!("not one of the shapes"),
    })
}

/// "Each line prints one line: `(ok)`, `(refused N)`, or for a tick `(slot (..))`, inside it the
/// outcome's word and fields in the order above with one blank between." "Each printed line is
/// closed by a line feed."
pub fn print(answer: &Answer) -> String {
    match answer {
        Answer::Accepted => "(ok)\n".to_string(),
        Answer::Refused(number) => format!("(refused {})\n", number),
        Answer::Slot(outcome) => format!("(slot ({}))\n", words(outcome)),
    }
}

/// "real (id, handle, length, padding), dummy (id), idle (id), none"
fn words(outcome: &Outcome) -> String {
    match outcome {
        Outcome::Real { id, handle, length, padding } => {
            format!("real {} {} {} {}", id, handle, length, padding)
        }
        Outcome::Dummy { id } => format!("dummy {}", id),
        Outcome::Idle { id } => format!("idle {}", id),
        Outcome::Nobody => "none".to_string(),
    }
}

/// The whole printout. "18 | whole text over 60,000 bytes; the only line printed".
pub fn run(text: &[u8]) -> Vec<u8> {
    match carry_out(text) {
        Some((_, printout)) => printout.into_bytes(),
        None => print(&Answer::Refused(18)).into_bytes(),
    }
}

/// The line that stands in place of the printout where the figure of S-14 (paper 02) is asked for:
/// what "private clients together" are sure of over n ticks of the core behind the script. "every
/// call but open | 19 | core unopened" is read of the question too.
pub fn sure(text: &[u8], n: u32) -> Vec<u8> {
    let Some((core, _)) = carry_out(text) else {
        return print(&Answer::Refused(18)).into_bytes();
    };
    match core.sure_picks(n) {
        Some(picks) => format!("(sure {} {})\n", n, picks).into_bytes(),
        None => print(&Answer::Refused(19)).into_bytes(),
    }
}

/// A number that stands alone, spelt as in a script: "A number has no sign and no leading zero,
/// except 0 itself." Nothing for any other text, and for a number "above 4294967295".
pub fn number(text: &[u8]) -> Option<u32> {
    if number_length(text)? < text.len() {
        return None;
    }
    value(text)
}

/// The core behind a script and the script's printout; nothing for a "whole text over 60,000
/// bytes". "An empty script prints nothing."
pub(crate) fn carry_out(text: &[u8]) -> Option<(Core, String)> {
    let mut core = Core::new();
    let mut printout = String::new();
    for line in lines(text)? {
        printout.push_str(&print(&answer_line(&mut core, line)));
    }
    Some((core, printout))
}

/// The lines of a script, read; nothing for a "whole text over 60,000 bytes". "One form a line,
/// each line closed by a line feed"; "bytes after the last line feed, give 16".
pub(crate) fn lines(text: &[u8]) -> Option<Vec<Line>> {
    if text.len() > 60000 {
        return None;
    }
    let mut lines = Vec::new();
    let mut line: Vec<u8> = Vec::new();
    for &byte in text {
        if byte == b'\n' {
            lines.push(parse(&line));
            line.clear();
        } else {
            line.push(byte);
        }
    }
    if !line.is_empty() {
        lines.push(Line::Refused(16));
    }
    Some(lines)
}

/// "A line that yields no form is answered and skipped."
fn answer_line(core: &mut Core, line: Line) -> Answer {
    match line {
        Line::Form(call) => core.perform(&call),
        Line::Refused(number) => Answer::Refused(number),
    }
}
