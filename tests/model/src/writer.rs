//! The order that is written (RULES, Orders).

use crate::graph::predecessors;
use crate::rows::Rows;
use std::collections::{BTreeMap, BTreeSet};

/// At each place the smallest number not yet placed whose predecessors all stand before it. It stops short where no
/// row may be placed, so an order exists exactly if it is as long as the table.
pub fn smallest_first(rows: &Rows) -> Vec<u32> {
    let mut waits: BTreeMap<u32, BTreeSet<u32>> =
        rows.keys().map(|&n| (n, predecessors(rows, n).into_iter().collect())).collect();
    let mut order = Vec::new();
    while let Some(next) = waits.iter().find(|(_, before)| before.is_empty()).map(|(&n, _)| n) {
        waits.remove(&next);
        waits.values_mut().for_each(|before| {
            before.remove(&next);
        });
        order.push(next);
    }
    order
}
