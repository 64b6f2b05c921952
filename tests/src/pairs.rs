//! `pairs PROGRAM FIRST_SEED COUNT`: the paper's "Two histories", from outside. Two scripts with
//! the same kept calls and different struck-out ones go through a program, and what the paper
//! compares must be the same in both.
//!
//! The faults of refilling only the client picked, and of taking a token for a packet refused
//! with 14, cannot be seen here, by their nature: which packet of an indifferent client goes out,
//! its queue and its level are then still functions of the kept calls alone (a private client has
//! no bucket to refill or to take from, and a change of type gives an empty one), so both histories
//! of a pair go wrong in the same way. So they do with a bucket that begins full, or that a change
//! which keeps the type empties. The plain remainder is no leak either. `compare` sees them.

use tests::arguments::Arguments;
use tests::history::{History, Seen};
use tests::history;
use tests::pair::{Pair, Side};
use tests::program::{run, shown, Run};
use tests::shrink;

/// A run of this many pairs must have met everything that is compared.
const ENOUGH: u64 = 1000;

/// The first difference between the two histories of a pair, in words.
fn difference(program: &str, pair: &Pair, seen: &mut Seen) -> Option<String> {
    let (first, second) = (pair.text(Side::First), pair.text(Side::Second));
    let (one, other) = (History::of(&first, pair.chosen), History::of(&second, pair.chosen));
    history::compare(&one, &run(program, &first), &other, &run(program, &second), seen)
}

/// Leaves out lines (kept ones in both texts, others in the one that has them) while the rest is
/// a pair that still differs. What is left must have the same kept calls: without a leave, say,
/// a struck-out arrival may become a kept one.
fn smallest(program: &str, pair: &Pair) -> Pair {
    let lines = shrink::fewest(&pair.lines, &mut |lines| {
        let candidate = Pair { chosen: pair.chosen, lines: lines.to_vec() };
        candidate.agrees() && difference(program, &candidate, &mut Seen::new()).is_some()
    });
    Pair { chosen: pair.chosen, lines }
}

fn report(program: &str, seed: u64, pair: &Pair, words: &str) {
    println!("seed {}: the histories differ: {}", seed, words);
    let small = smallest(program, pair);
    let words = difference(program, &small, &mut Seen::new());
    println!("smallest pair, chosen client {}: {}", small.chosen, words.unwrap_or_default());
    for side in [Side::First, Side::Second] {
        let text = small.text(side);
        let Run { printout, ended_well } = run(program, &text);
        let end = if ended_well { "" } else { ", it did not end well" };
        println!("\n{:?} text, {} bytes{}:\n{}", side, text.len(), end, shown(&text));
        println!("its printout:\n{}", shown(&printout));
    }
}

fn main() {
    let arguments = Arguments::read("pairs PROGRAM FIRST_SEED COUNT");
    let program = &arguments.program;
    let mut seen = Seen::new();
    for seed in arguments.seeds() {
        let pair = Pair::from_seed(seed);
        assert!(pair.agrees(), "seed {} gives no pair", seed);
        if let Some(words) = difference(program, &pair, &mut seen) {
            report(program, seed, &pair, &words);
            std::process::exit(1);
        }
    }
    let complete = seen.print();
    println!(
        "compared {} pairs, {} kept calls, {} struck out: no difference",
        arguments.count, seen.kept_calls, seen.struck_out
    );
    if arguments.count >= ENOUGH && !complete {
        println!("but not everything that is compared came up");
        std::process::exit(1);
    }
}
