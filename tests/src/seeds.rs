//! Seeds by what they give. Few values of a generator are thrown away (paper 02, S-1), so a script
//! that is to meet one has to open with a seed made for it.

use crate::random::Random;

/// The number before `v = n ^ (n << shift)`.
fn before_left(v: u32, shift: u32) -> u32 {
    (0..32 / shift).fold(v, |n, _| v ^ (n << shift))
}

/// The number before `v = n ^ (n >> shift)`.
fn before_right(v: u32, shift: u32) -> u32 {
    (0..32 / shift).fold(v, |n, _| v ^ (n >> shift))
}

/// The value before `v` in the generator.
pub fn stepped_back(v: u32) -> u32 {
    before_left(before_right(before_left(v, 5), 17), 13)
}

/// A seed that gives one of the highest values after a few draws: those that a sum may throw away.
pub fn high_seed(random: &mut Random) -> u32 {
    let high = random.between(4294966272, 4294967295);
    let draws = random.between(1, 5);
    (0..draws).fold(high, |v, _| stepped_back(v))
}
