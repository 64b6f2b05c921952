//! What the programs of long runs share (docs/LONG_RUNS.md): what they are given, the block and
//! the check of the answers.

use crate::core::{xorshift32, Answer, Outcome};

/// "A block is 1,000,000 calls."
pub const BLOCK: u64 = 1_000_000;

/// "The program is given the seed and the number of blocks."
pub fn arguments(program: &str) -> (u32, u64) {
    let arguments: Vec<String> = std::env::args().collect();
    let [_, seed, blocks] = &arguments[..] else {
        eprintln!("use: {} SEED BLOCKS", program);
        std::process::exit(2);
    };
    let seed: u32 = seed.parse().expect("SEED is a 32-bit number");
    let blocks: u64 = blocks.parse().expect("BLOCKS is a number");
    (seed, blocks)
}

/// "A handle has 64 bits (paper 02, S-6), so it gives two words": "handle mod 4294967296, handle /
/// 4294967296".
fn halves(handle: u64) -> [u32; 2] {
    [(handle % 4294967296) as u32, (handle / 4294967296) as u32]
}

/// The words that an answer mixes into the check.
fn words(answer: &Answer) -> Vec<u32> {
    match *answer {
        Answer::Accepted => vec![1],
        Answer::Refused(number) => vec![2, number],
        Answer::Slot(Outcome::Real { id, handle, length, padding }) => {
            let [lower, upper] = halves(handle);
            vec![3, id, lower, upper, length, padding]
        }
        Answer::Slot(Outcome::Dummy { id }) => vec![4, id],
        Answer::Slot(Outcome::Idle { id }) => vec![5, id],
        Answer::Slot(Outcome::Nobody) => vec![6],
    }
}

/// "To mix a word w into it: h becomes xorshift32 of (h + w) mod 2^32."
fn mix(check: u32, word: u32) -> u32 {
    xorshift32(check.wrapping_add(word))
}

/// "An answer mixes in its words, in this order": the check after an answer.
pub fn mix_answer(check: u32, answer: &Answer) -> u32 {
    let mut check = check;
    for word in words(answer) {
        check = mix(check, word);
    }
    check
}
