//! Ticket tables from outside and orders over them (RULES, Orders), and the answer of the C call on bytes (RULES, The
//! C call). The order rule is tested site by site: along the order, the tickets of each site must rise.

use crate::rows::{Rows, Tickets, MOST_SITES, SLOTS};
use std::collections::BTreeSet;

/// A ticket table as it is handed in: rows in sequence, each a number and a ticket for each of eight sites.
pub type Listed = Vec<(u32, [u32; MOST_SITES])>;

pub const YES: u32 = 1;
pub const NO: u32 = 0;
pub const BAD_TABLE: u32 = 13;

/// The table by number, or none if it is bad: too many rows, a number 0, two equal numbers, or two equal tickets
/// other than 0 at one site.
pub fn good_rows(listed: &Listed) -> Option<Rows> {
    let mut rows = Rows::new();
    let mut tickets = BTreeSet::new();
    if listed.len() > SLOTS {
        return None;
    }
    for (number, row) in listed {
        if *number == 0 || rows.contains_key(number) {
            return None;
        }
        let held: Tickets = (0..).zip(row.iter().copied()).filter(|&(_, ticket)| ticket != 0).collect();
        for (&site, &ticket) in &held {
            if !tickets.insert((site, ticket)) {
                return None;
            }
        }
        rows.insert(*number, held);
    }
    Some(rows)
}

/// The order names every row once and no other, and where two rows share a site the smaller ticket stands earlier.
pub fn is_order(rows: &Rows, order: &[u32]) -> bool {
    let named: BTreeSet<u32> = order.iter().copied().collect();
    let all: BTreeSet<u32> = rows.keys().copied().collect();
    named == all && named.len() == order.len() && (0..MOST_SITES as u8).all(|site| rises(rows, order, site))
}

fn rises(rows: &Rows, order: &[u32], site: u8) -> bool {
    let along: Vec<u32> = order.iter().filter_map(|n| rows.get(n)?.get(&site).copied()).collect();
    along.windows(2).all(|pair| pair[0] < pair[1])
}

/// The bytes of a ticket table, or none where they are no whole number of rows.
pub fn listed_of(bytes: &[u8]) -> Option<Listed> {
    let words = words_of(bytes).filter(|w| w.len() % (1 + MOST_SITES) == 0)?;
    let row = |w: &[u32]| (w[0], std::array::from_fn(|site| w[1 + site]));
    Some(words.chunks(1 + MOST_SITES).map(row).collect())
}

pub fn words_of(bytes: &[u8]) -> Option<Vec<u32>> {
    let word = |b: &[u8]| b.iter().fold(0, |value, &byte| value << 8 | u32::from(byte));
    (bytes.len() % 4 == 0).then(|| bytes.chunks(4).map(word).collect())
}

/// What the C call answers on any two lists of bytes.
pub fn c_call(rows: &[u8], order: &[u8]) -> u32 {
    let Some(rows) = listed_of(rows).as_ref().and_then(good_rows) else { return BAD_TABLE };
    match words_of(order) {
        Some(order) if is_order(&rows, &order) => YES,
        _ => NO,
    }
}
