//! Texts that a program prints otherwise than the second program, made small.

use crate::lines;
use crate::program::{run, shown, Run};
use crate::shrink;

/// The second program: what it prints for a script, or for the text of another of its programs.
pub type Second = fn(&[u8]) -> Vec<u8>;

/// What the second program makes of a text.
pub fn expected(second: Second, text: &[u8]) -> Run {
    Run { printout: second(text), ended_well: true }
}

/// The smallest text found of which `fails` still holds: fewest lines, then fewest bytes in each
/// line, then small numbers, and again, as smaller numbers may let lines go. The count of tries is
/// bounded, as a text past 60,000 bytes hardly shrinks.
pub fn smallest(text: &[u8], fails: &mut dyn FnMut(&[u8]) -> bool) -> Vec<u8> {
    let mut tries_left = 10_000;
    let mut differs = |text: &[u8]| {
        tries_left -= 1;
        tries_left >= 0 && fails(text)
    };
    let mut text = text.to_vec();
    loop {
        let before = text.clone();
        text = fewer_lines(&text, &mut differs);
        text = fewer_bytes(&text, &mut differs);
        text = smaller_numbers(text, &mut differs);
        if text == before {
            return text;
        }
    }
}

fn fewer_lines(text: &[u8], differs: &mut dyn FnMut(&[u8]) -> bool) -> Vec<u8> {
    let lines: Vec<&[u8]> = text.split_inclusive(|&byte| byte == b'\n').collect();
    shrink::fewest(&lines, &mut |lines: &[&[u8]]| differs(&lines.concat())).concat()
}

fn fewer_bytes(text: &[u8], differs: &mut dyn FnMut(&[u8]) -> bool) -> Vec<u8> {
    let mut lines: Vec<Vec<u8>> =
        text.split_inclusive(|&byte| byte == b'\n').map(|line| line.to_vec()).collect();
    for place in 0..lines.len() {
        let (before, after) = (lines[..place].concat(), lines[place + 1..].concat());
        lines[place] = shrink::fewest(&lines[place], &mut |line: &[u8]| {
            differs(&[&before, line, &after].concat())
        });
    }
    lines.concat()
}

/// Puts 0, 1, a half or one less for each number, while the text still differs.
fn smaller_numbers(text: Vec<u8>, differs: &mut dyn FnMut(&[u8]) -> bool) -> Vec<u8> {
    let mut text = text;
    let mut place = 0;
    while let Some(&(start, end)) = lines::digit_runs(&text).get(place) {
        let digits = String::from_utf8_lossy(&text[start..end]).into_owned();
        let value: u128 = digits.parse().unwrap_or(0);
        let mut smaller = None;
        for other in [0, 1, value / 2, value.saturating_sub(1)] {
            let other_text = [&text[..start], other.to_string().as_bytes(), &text[end..]].concat();
            if other < value && differs(&other_text) {
                smaller = Some(other_text);
                break;
            }
        }
        match smaller {
            Some(other_text) => text = other_text,
            None => place += 1,
        }
    }
    text
}

/// Prints the smallest text found that still differs, with both printouts.
pub fn report(program: &str, second: Second, text: &[u8]) {
    let differs = &mut |text: &[u8]| run(program, text) != expected(second, text);
    let small = smallest(text, differs);
    println!("smallest text, {} bytes:\n{}", small.len(), shown(&small));
    print_run(program, &small);
    println!("printout of the second program:\n{}", shown(&second(&small)));
}

/// Prints what a program makes of a text.
pub fn print_run(program: &str, text: &[u8]) {
    let found = run(program, text);
    println!("printout of {}:\n{}", program, shown(&found.printout));
    if !found.ended_well {
        println!("(it did not end well)");
    }
}
