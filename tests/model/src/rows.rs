//! Rows of tickets, as the graph and the orders see them.

use std::collections::BTreeMap;

pub const SLOTS: usize = 32;
pub const MOST_SITES: usize = 8;

/// The tickets of one transaction, by site.
pub type Tickets = BTreeMap<u8, u32>;
/// Rows by the transaction's number.
pub type Rows = BTreeMap<u32, Tickets>;
