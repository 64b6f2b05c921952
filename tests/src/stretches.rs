//! `stretches SLOTS SEED BLOCK`: where a long run differs, which script shows it? The calls of a block of the long run
//! (docs/LONG_RUNS.md), from each open to the next, or as far as a script goes, are sent through a program, and the smallest
//! script that differs is printed. What no form can say, a type that is neither or a private burst, is refused and left out.

use second::core::{Call, INDIFFERENT, PRIVATE};
use second::maker::Maker;
use tests::difference::{expected, report};
use tests::lines;
use tests::program;

const BLOCK: u64 = 1_000_000;

/// "whole text over 60,000 bytes"
const LONGEST: usize = 60_000;

/// Whether the script has a form for the call.
fn has_form(call: &Call) -> bool {
    match *call {
        Call::Join { kind, burst, .. } | Call::Change { kind, burst, .. } => {
            kind == INDIFFERENT || (kind == PRIVATE && burst == 0)
        }
        _ => true,
    }
}

/// Compares one stretch; ends the program if it differs.
fn compare(program: &str, text: &[u8]) {
    if program::run(program, text) != expected(second::script::run, text) {
        report(program, second::script::run, text);
        std::process::exit(1);
    }
}

fn main() {
    let arguments: Vec<String> = std::env::args().collect();
    let [_, program, seed, block] = &arguments[..] else {
        eprintln!("use: stretches SLOTS SEED BLOCK");
        std::process::exit(2);
    };
    let mut maker = Maker::new(seed.parse().expect("SEED is a 32-bit number"));
    let block: u64 = block.parse().expect("BLOCK is a number");
    let (mut text, mut compared, mut full): (Vec<u8>, u64, bool) = (Vec::new(), 0, false);
    for made in 0..block * BLOCK {
        let call = maker.next_call();
        if made < (block - 1) * BLOCK || !has_form(&call) {
            continue;
        }
        if matches!(call, Call::Open { .. }) {
            compare(program, &text);
            compared += 1;
            (text, full) = (Vec::new(), false);
        }
        let line = lines::line_of(&call);
        full |= text.len() + line.len() + 1 > LONGEST;
        if !full {
            text.extend(line);
            text.push(b'\n');
        }
    }
    println!("compared {} stretches of calls: no difference", compared);
}
