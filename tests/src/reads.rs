//! A `read` that stands before the C library's (LD_PRELOAD), for what a system seldom gives. The variable READS has a letter for each read
//! in turn, and the last letter stands for all that follow:
//!
//! - `e`, `i`: the read succeeds, with at most sixteen bytes, and errno, which says nothing of it, is left at EIO or at EINTR
//! - `E`, `I`: the read fails, with EIO or with EINTR

use std::sync::atomic::{AtomicUsize, Ordering};

const EINTR: i32 = 4;
const EIO: i32 = 5;
const MOST: usize = 16;

static READS: AtomicUsize = AtomicUsize::new(0);

extern "C" {
    fn __read(file: i32, bytes: *mut u8, count: usize) -> isize;
    fn __errno_location() -> *mut i32;
}

/// # Safety
/// As C's read: `count` bytes from `bytes` on may be written.
#[no_mangle]
pub unsafe extern "C" fn read(file: i32, bytes: *mut u8, count: usize) -> isize {
    let plan = std::env::var("READS").expect("READS is set");
    let turn = READS.fetch_add(1, Ordering::Relaxed).min(plan.len() - 1);
    let letter = plan.as_bytes()[turn];
    let given = if letter.is_ascii_uppercase() { -1 } else { __read(file, bytes, count.min(MOST)) };
    *__errno_location() = if letter.eq_ignore_ascii_case(&b'i') { EINTR } else { EIO };
    given
}
