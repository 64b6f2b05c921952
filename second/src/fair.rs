//! S-8 of paper 02, "Fair rates when all want more", and the text and printout of the program
//! `fair`. The rates are found as the words say: level after level is tried from 1024 down.
//! Sentences quoted up to `sum` are those of S-8, behind it those on the program `fair`.

use crate::core::Answer;
use crate::script::{numbers_in, print, value};

/// The rates, in the order of the list, which holds pairs of id and demand. "22, the only check,
/// ... no rate is then given."
pub fn rates(threshold: u32, demands: &[(u32, u32)]) -> Result<Vec<u32>, u32> {
    if is_refused(threshold, demands) {
        return Err(22);
    }
    let level = largest_level(threshold, demands);
    let mut rates = cut(demands, level);
    // "What is left goes one share each, by rising id, to demands above the level." The list is
    // by rising id, else it was refused.
    let mut left = threshold - sum(&rates);
    for place in 0..demands.len() {
        let (_, demand) = demands[place];
        if demand > level && left > 0 {
            rates[place] += 1;
            left -= 1;
        }
    }
    Ok(rates)
}

/// The reasons for 22, in the order of the words.
fn is_refused(threshold: u32, demands: &[(u32, u32)]) -> bool {
    // "a threshold outside 1..1024"
    if threshold < 1 || threshold > 1024 {
        return true;
    }
    // "a list over 64"
    if demands.len() > 64 {
        return true;
    }
    // "ids above 63 or not rising"
    for place in 0..demands.len() {
        if demands[place].0 > 63 {
            return true;
        }
        if place > 0 && demands[place].0 <= demands[place - 1].0 {
            return true;
        }
    }
    // "a demand out of range": "demands of 1 to 1024"
    for &(_, demand) in demands {
        if demand < 1 || demand > 1024 {
            return true;
        }
    }
    // "or more demands than shares in the threshold"
    demands.len() > threshold as usize
}

/// "find the largest level up to 1024 at which demands cut to that level fit the threshold." Level
/// 1 fits whatever is not refused, since there are not "more demands than shares".
fn largest_level(threshold: u32, demands: &[(u32, u32)]) -> u32 {
    let mut level = 1024;
    while sum(&cut(demands, level)) > threshold {
        level -= 1;
    }
    level
}

/// "demands cut to that level"
fn cut(demands: &[(u32, u32)], level: u32) -> Vec<u32> {
    let mut shares = Vec::new();
    for &(_, demand) in demands {
        shares.push(demand.min(level));
    }
    shares
}

fn sum(shares: &[u32]) -> u32 {
    let mut sum = 0;
    for share in shares {
        sum += share;
    }
    sum
}

/// "a first line `(threshold T)` and then, for each demand, a line `(demand I D)`", spelt as the
/// forms of a script are.
const THRESHOLD: &[u8] = b"(threshold #)";
const DEMAND: &[u8] = b"(demand # #)";

/// The digits of a text of the right shape: those of its threshold, and of each demand's two
/// numbers, id and demand.
struct Spelt<'a> {
    threshold: &'a [u8],
    demands: Vec<[&'a [u8]; 2]>,
}

/// The bytes that `fair` prints for a whole text: "for each demand in the order of the text, the
/// line `(rate I R)`, or else exactly one line" `(refused N)`.
pub fn run(text: &[u8]) -> Vec<u8> {
    match rate_lines(text) {
        Ok(lines) => lines.into_bytes(),
        Err(number) => print(&Answer::Refused(number)).into_bytes(),
    }
}

/// "So 18 first, then shape (16), then size (17), then 22, whichever line the fault is on."
fn rate_lines(text: &[u8]) -> Result<String, u32> {
    if text.len() > 60000 {
        return Err(18);
    }
    let spelt = shape(text).ok_or(16u32)?;
    let (threshold, demands) = size(&spelt).ok_or(17u32)?;
    let rates = rates(threshold, &demands)?;
    let mut lines = String::new();
    for ((id, _), rate) in demands.iter().zip(rates) {
        lines.push_str(&format!("(rate {} {})\n", id, rate));
    }
    Ok(lines)
}

/// The numbers of a text of the right shape; nothing for a text of "another shape".
fn shape(text: &[u8]) -> Option<Spelt<'_>> {
    // "each line closed by a line feed": what a split leaves behind the last one must be empty.
    let mut lines: Vec<&[u8]> = text.split(|&byte| byte == b'\n').collect();
    if !lines.pop()?.is_empty() {
        return None;
    }
    let (first, others) = lines.split_first()?;
    let threshold = numbers_in(THRESHOLD, first)?[0];
    let mut demands = Vec::new();
    for line in others {
        let numbers = numbers_in(DEMAND, line)?;
        demands.push([numbers[0], numbers[1]]);
    }
    Some(Spelt { threshold, demands })
}

/// The values; nothing where "some number of it is above 4294967295".
fn size(spelt: &Spelt<'_>) -> Option<(u32, Vec<(u32, u32)>)> {
    let mut demands = Vec::new();
    for [id, demand] in &spelt.demands {
        demands.push((value(id)?, value(demand)?));
    }
    Some((value(spelt.threshold)?, demands))
}
