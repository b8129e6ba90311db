//! What the coordinator remembers, kept in maps: transactions by number, their parts by site (RULES, The table).

use crate::rows::{Rows, Tickets, SLOTS};
use std::collections::{BTreeMap, BTreeSet};

/// A transaction's doings at one site. No ticket: begun. A ticket: ticketed. Prepared: prepared.
#[derive(Clone, Debug, PartialEq, Eq)]
pub struct Part {
    pub base: u32,
    pub ticket: Option<u32>,
    pub prepared: bool,
}

#[derive(Clone, Debug, PartialEq, Eq)]
pub struct Transaction {
    /// The slot it was given at its begin.
    pub place: usize,
    pub parts: BTreeMap<u8, Part>,
    /// The last number begun when it committed; none while it is active.
    pub committed: Option<u32>,
}

impl Transaction {
    pub fn tickets(&self) -> Tickets {
        self.parts.iter().filter_map(|(&site, part)| Some((site, part.ticket?))).collect()
    }
}

/// No sites at all: the closed table.
#[derive(Clone, Debug, Default, PartialEq, Eq)]
pub struct Table {
    /// The highest committed ticket of each site, the floor at first.
    pub highest: Vec<u32>,
    /// The last number begun; one below the first before any begin.
    pub last: u32,
    pub all: BTreeMap<u32, Transaction>,
}

impl Table {
    pub fn is_closed(&self) -> bool {
        self.highest.is_empty()
    }

    pub fn has_site(&self, site: u8) -> bool {
        usize::from(site) < self.highest.len()
    }

    pub fn part(&self, number: u32, site: u8) -> Option<&Part> {
        self.all.get(&number)?.parts.get(&site)
    }

    pub fn part_mut(&mut self, number: u32, site: u8) -> Option<&mut Part> {
        self.all.get_mut(&number)?.parts.get_mut(&site)
    }

    pub fn active(&self) -> impl Iterator<Item = u32> + '_ {
        self.all.iter().filter(|(_, t)| t.committed.is_none()).map(|(&n, _)| n)
    }

    /// The tickets of every kept committed transaction.
    pub fn kept(&self) -> Rows {
        self.all.iter().filter(|(_, t)| t.committed.is_some()).map(|(&n, t)| (n, t.tickets())).collect()
    }

    /// The kept committed ones as the coordinator lists them, lowest slot first.
    pub fn kept_by_place(&self) -> Vec<u32> {
        let by_place: BTreeMap<usize, u32> =
            self.all.iter().filter(|(_, t)| t.committed.is_some()).map(|(&n, t)| (t.place, n)).collect();
        by_place.into_values().collect()
    }

    pub fn lowest_free_place(&self) -> usize {
        let taken: BTreeSet<usize> = self.all.values().map(|t| t.place).collect();
        (0..).find(|place| !taken.contains(place)).unwrap_or(SLOTS)
    }
}

/// The sites of a site list, lowest first: bit i is site i.
pub fn sites_of(list: u8) -> Vec<u8> {
    (0..8).filter(|site| list >> site & 1 == 1).collect()
}
