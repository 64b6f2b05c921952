//! What the test programs share.

pub mod arguments;
pub mod buckets;
pub mod crowds;
pub mod demands;
pub mod difference;
pub mod history;
pub mod lines;
pub mod pair;
pub mod program;
pub mod random;
pub mod recount;
pub mod scripts;
pub mod seeds;
pub mod sentences;
pub mod shrink;
pub mod steady;
