//! The slot core of paper 01, as amended by S-1, S-4, S-6, S-7 and S-9 of paper 02, its script, the
//! figure of S-14, the fair rates of S-8, the sheets of S-5 and the count sheets of S-7, written
//! from these words and, for the sentences of S-5's sheets, the manual's alone.

pub mod core;
pub mod counts;
pub mod fair;
pub mod maker;
pub mod script;
pub mod sheet;

#[cfg(test)]
mod check;
#[cfg(test)]
mod check_buckets;
#[cfg(test)]
mod check_counts;
#[cfg(test)]
mod check_fair;
#[cfg(test)]
mod check_handles;
#[cfg(test)]
mod check_places;
#[cfg(test)]
mod check_sheets;
#[cfg(test)]
#[allow(dead_code)] // what the long runs are given is not checked
mod tally;
