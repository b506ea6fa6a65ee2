//! The lines of a report.

/// A line 'ok' or 'FAIL' for a test.
pub fn say(holds: bool, what: &str) -> bool {
    println!("{} {}", if holds { "ok  " } else { "FAIL" }, what);
    holds
}

/// The counts that are not 0, each with its number.
pub fn list(counts: &[u64]) -> String {
    let seen = counts.iter().enumerate().filter(|(_, count)| **count > 0);
    seen.map(|(number, count)| format!("{}: {}", number, count))
        .collect::<Vec<_>>()
        .join(", ")
}

/// Whether each of these numbers was counted.
pub fn all(counts: &[u64], numbers: &[usize]) -> bool {
    numbers.iter().all(|number| counts[*number] > 0)
}
