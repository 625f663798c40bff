//! How often each thing was met.

use std::collections::BTreeMap;
use std::io::{Write, stderr};

/// Counts by label.
#[derive(Clone, Debug, Default)]
pub struct Tally(BTreeMap<String, u64>);

impl Tally {
    /// Counts one.
    pub fn add(&mut self, label: &str) {
        // Most labels are met again, and need no new string then.
        match self.0.get_mut(label) {
            Some(count) => *count += 1,
            None => {
                self.0.insert(label.into(), 1);
            }
        }
    }

    /// How often the label was met.
    pub fn count(&self, label: &str) -> u64 {
        self.0.get(label).copied().unwrap_or(0)
    }

    /// All counts of both.
    pub fn join(&mut self, other: Tally) {
        for (label, count) in other.0 {
            *self.0.entry(label).or_default() += count;
        }
    }

    /// Prints the counts, also where a test's output is captured.
    pub fn print(&self, title: &str) {
        let counts = self.0.iter();
        let counts: Vec<String> = counts
            .map(|(label, count)| format!("{label}: {count}"))
            .collect();
        let text = format!("\n{title}: {}\n", counts.join("; "));
        stderr()
            .write_all(text.as_bytes())
            .expect("standard error takes the counts");
    }

    /// Fails if one of these labels was met fewer than `least` times, and names
    /// all that were.
    pub fn check(&self, title: &str, labels: &[impl AsRef<str>], least: u64) {
        let labels = labels.iter().map(AsRef::as_ref);
        let counts = labels.map(|label| (label, self.count(label)));
        let rare: Vec<(&str, u64)> = counts.filter(|&(_, count)| count < least).collect();
        assert!(
            rare.is_empty(),
            "{title}: met fewer than {least} times: {rare:?}"
        );
    }

    /// Prints the counts, then checks them.
    pub fn report(&self, title: &str, labels: &[impl AsRef<str>], least: u64) {
        self.print(title);
        self.check(title, labels, least);
    }

    /// Fails if one of these labels was met.
    pub fn check_never(&self, title: &str, labels: &[&str]) {
        for label in labels {
            assert_eq!(self.count(label), 0, "{title}: {label} cannot be");
        }
    }
}
