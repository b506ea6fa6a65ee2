//! A row of a table: two sides in turn on the same work, and what each one took at best.

/// Rounds of each measurement; the best of them counts.
pub const ROUNDS: usize = 301;

/// What stands in the columns.
pub fn title(ours: &str, theirs: &str, ratio: &str) {
    println!("{:<45} {:>9} {:>11} {:>19}", "", ours, theirs, ratio);
}

/// Both in turn, round after round; each one's best. A round gives its time and a sum over what it wrote.
pub fn compare(what: &str, mut ours: impl FnMut() -> (f64, usize), mut theirs: impl FnMut() -> (f64, usize)) {
    let mut least = [f64::INFINITY; 2];
    for _ in 0..ROUNDS {
        let (our_time, our_sum) = ours();
        let (their_time, their_sum) = theirs();
        assert_eq!(our_sum, their_sum, "{}: both do the same work", what);
        least = [least[0].min(our_time), least[1].min(their_time)];
    }
    let [ours, theirs] = least;
    println!("{:<45} {:>9.1} {:>11.1} {:>19.2}", what, ours, theirs, theirs / ours);
}
