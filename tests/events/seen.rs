//! Lines about what the runs must have had in them.

use crate::harness::report::say;
use std::collections::BTreeSet;
use std::fmt::{Debug, Display};

/// A line for counts that have names: each must be more than 0.
pub fn each<T: Display>(what: &str, names: &[T], counts: &[u64]) -> bool {
    let named = names.iter().zip(counts);
    let listed: Vec<String> = named.map(|(name, count)| format!("{}: {}", name, count)).collect();
    say(
        counts.iter().all(|count| *count > 0),
        &format!("{} ({})", what, listed.join(", ")),
    )
}

/// A line for things that must all have been seen; it names those that were not.
pub fn whole<T: Ord + Debug>(what: &str, seen: &BTreeSet<T>, wanted: impl IntoIterator<Item = T>) -> bool {
    let missing: Vec<T> = wanted.into_iter().filter(|thing| !seen.contains(thing)).collect();
    let names = if missing.is_empty() {
        format!("{}", seen.len())
    } else {
        format!("missing: {:.300}", format!("{:x?}", missing))
    };
    say(missing.is_empty(), &format!("{} ({})", what, names))
}
