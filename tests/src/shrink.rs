//! Makes a failing input small.

/// Leaves out parts while `fails` still holds: large pieces first, then smaller ones down to
/// single parts, till none of these can be left out.
pub fn fewest<T: Clone>(parts: &[T], fails: &mut dyn FnMut(&[T]) -> bool) -> Vec<T> {
    let mut left = parts.to_vec();
    let mut piece = (left.len() / 2).max(1);
    loop {
        let before = left.len();
        let mut start = 0;
        while start < left.len() {
            let end = (start + piece).min(left.len());
            let rest = [&left[..start], &left[end..]].concat();
            if fails(&rest) {
                left = rest;
            } else {
                start = end;
            }
        }
        if piece > 1 {
            piece /= 2;
        } else if left.len() == before {
            return left;
        }
    }
}
