//! The count sheets of paper 02, S-7, as lines: what `--counts` prints in place of a script's
//! answers. Sentences quoted without a source are those on the program.

use crate::core::{Answer, Core};
use crate::script::{carry_out, print};

/// "one line `(counts I A S F G E D)`": the id, then the counts in the order of S-7, "accepted,
/// sent, refused 14, refused 15, emptied out, dummies sent". It is "spelt by the script's rules:
/// one blank between parts, decimal, each line closed by a line feed".
pub fn line(id: u32, counts: [u64; 6]) -> String {
    let [accepted, sent, refused_14, refused_15, emptied, dummies] = counts;
    format!(
        "(counts {} {} {} {} {} {} {})\n",
        id, accepted, sent, refused_14, refused_15, emptied, dummies
    )
}

/// "for every active client by rising id"; an id whose sheet is refused has no line, so that there
/// is "nothing for an unopened core".
pub fn lines(core: &Core) -> String {
    let mut lines = String::new();
    for id in 0..64u32 {
        if let Ok(counts) = core.counts(id) {
            lines.push_str(&line(id, counts));
        }
    }
    lines
}

/// The lines "as they stand after the script's last line". "A script over 60,000 bytes still prints
/// `(refused 18)` as its only line."
pub fn sheets(script: &[u8]) -> Vec<u8> {
    match carry_out(script) {
        Some((core, _)) => lines(&core).into_bytes(),
        None => print(&Answer::Refused(18)).into_bytes(),
    }
}
