//! Counts which answers were seen, and says which of those that can occur were not.

use crate::line::Line;
use std::collections::BTreeMap;

#[derive(Default)]
pub struct Tally(BTreeMap<String, u64>);

/// Every line the service can write. It never gives 12 to 14: its kept rows always are a good table with an order,
/// and it has room for all of them.
pub const SERVICE: [&str; 19] = [
    "ok",
    "begin",
    "commit",
    "cycle",
    "swept",
    "good",
    "bad",
    "order",
    "refused 1",
    "refused 2",
    "refused 3",
    "refused 4",
    "refused 5",
    "refused 6",
    "refused 7",
    "refused 8",
    "refused 9",
    "refused 10",
    "refused 11",
];

/// Every answer of the C call.
pub const C_CALL: [&str; 3] = ["13", "1", "0"];

impl Tally {
    pub fn count(&mut self, label: String) {
        *self.0.entry(label).or_default() += 1;
    }

    pub fn count_line(&mut self, line: &Line) {
        let text = line.to_string();
        self.count(match line {
            Line::Refused(_) => text,
            _ => text.split(' ').next().unwrap_or_default().to_string(),
        });
    }

    pub fn add(&mut self, other: Tally) {
        for (label, count) in other.0 {
            *self.0.entry(label).or_default() += count;
        }
    }

    pub fn of(&self, label: &str) -> u64 {
        self.0.get(label).copied().unwrap_or(0)
    }

    /// What was seen that nobody expects.
    pub fn strange<'a>(&'a self, expected: &'a [&str]) -> impl Iterator<Item = &'a String> {
        self.0.keys().filter(|label| !expected.contains(&label.as_str()))
    }
}
