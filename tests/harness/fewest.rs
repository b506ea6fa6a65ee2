//! Makes what fails short.

/// As few of them as still fail.
#[allow(dead_code)] // not every comparison goes by this alone
pub fn fewest<T: Clone>(all: &[T], fails: impl Fn(&[T]) -> bool) -> Vec<T> {
    let mut best = all.to_vec();
    let mut width = (best.len() + 1) / 2;
    while width > 0 {
        let mut at = 0;
        while at < best.len() {
            let end = best.len().min(at + width);
            let shorter = [&best[..at], &best[end..]].concat();
            if fails(&shorter) {
                best = shorter;
            } else {
                at = end;
            }
        }
        width /= 2;
    }
    best
}
