//! A long run: `long SEED BLOCKS` makes calls from a seed on the core and prints, after each block
//! of 1,000,000 calls, a check of all answers so far. Another program that makes the same calls
//! prints the same lines if its answers agree.

mod core;
mod maker;
mod tally;

use crate::core::Core;
use crate::maker::Maker;
use crate::tally::{arguments, mix_answer, BLOCK};

fn main() {
    let (seed, blocks) = arguments("long");
    let mut maker = Maker::new(seed);
    let mut core = Core::new(); // "The first call is made on an unopened core."
    let mut check: u32 = 0;
    for block in 1..=blocks {
        for _ in 0..BLOCK {
            let answer = core.perform(&maker.next_call());
            check = mix_answer(check, &answer);
        }
        println!("(calls {} check {})", block * BLOCK, check);
    }
}
