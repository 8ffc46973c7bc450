//! What a statistics file counts.

use std::collections::BTreeMap;

pub type Counts = BTreeMap<String, u32>;

pub fn count(counts: &mut Counts, what: impl ToString) {
    *counts.entry(what.to_string()).or_default() += 1;
}

/// How often each of these occurs.
pub fn each(counts: &Counts, wanted: &[&str]) -> Vec<(String, u32)> {
    let times = |what: &&str| (what.to_string(), counts.get(*what).copied().unwrap_or(0));
    wanted.iter().map(times).collect()
}

/// A line for each of the counts, and one for each that is wanted and occurs too seldom.
pub fn print(named: &[(&str, &Counts)], wanted: &[(String, u32)], fewest: u32) {
    for (name, counts) in named {
        eprintln!("{name} {counts:?}");
    }
    for (what, times) in wanted.iter().filter(|(_, times)| *times < fewest) {
        eprintln!("TOO FEW: {what} occurs {times} times");
    }
}
