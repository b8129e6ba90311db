//! Arrows between rows of tickets, and plain depth-first search along them (RULES, Graph and decision).

use crate::rows::{Rows, Tickets};
use std::collections::{BTreeMap, BTreeSet};

/// Some site that both use, where the first holds the smaller ticket.
pub fn arrow(a: &Tickets, b: &Tickets) -> bool {
    a.iter().any(|(site, ticket)| b.get(site).is_some_and(|other| ticket < other))
}

/// The rows that have an arrow to this one.
pub fn predecessors(rows: &Rows, number: u32) -> Vec<u32> {
    let Some(row) = rows.get(&number) else { return Vec::new() };
    rows.iter().filter(|(_, other)| arrow(other, row)).map(|(&n, _)| n).collect()
}

fn successors(rows: &Rows) -> BTreeMap<u32, Vec<u32>> {
    let after = |row| rows.iter().filter(|(_, other)| arrow(row, other)).map(|(&n, _)| n).collect();
    rows.iter().map(|(&n, row)| (n, after(row))).collect()
}

/// Whether the arrows make a cycle of any length: a search that comes upon a row it is still inside of.
pub fn has_cycle(rows: &Rows) -> bool {
    fn visit(at: u32, next: &BTreeMap<u32, Vec<u32>>, inside: &mut BTreeSet<u32>, done: &mut BTreeSet<u32>) -> bool {
        if done.contains(&at) {
            return false;
        }
        if !inside.insert(at) {
            return true;
        }
        let found = next[&at].iter().any(|&n| visit(n, next, inside, done));
        inside.remove(&at);
        done.insert(at);
        found
    }
    let next = successors(rows);
    let (mut inside, mut done) = (BTreeSet::new(), BTreeSet::new());
    rows.keys().any(|&n| visit(n, &next, &mut inside, &mut done))
}

/// All rows that a path of arrows, possibly of no arrows, leads to from one of these.
pub fn reached(rows: &Rows, from: &[u32]) -> BTreeSet<u32> {
    let next = successors(rows);
    let mut seen = BTreeSet::new();
    let mut left: Vec<u32> = from.iter().copied().filter(|n| rows.contains_key(n)).collect();
    while let Some(at) = left.pop() {
        if seen.insert(at) {
            left.extend(&next[&at]);
        }
    }
    seen
}
