//! A history that never forgets: every transaction ever begun with the moments of its life, and the questions that can
//! be answered from it. There are no slots here, no stored bases, no recorded last numbers and no kept highest tickets:
//! all of that is read off the moments. So it shares no rule with the model.

use std::collections::{BTreeMap, BTreeSet};

#[derive(Default)]
pub struct History {
    pub first: u32,
    pub floors: Vec<u32>,
    /// Counts the messages, so that moments can be compared.
    pub now: u64,
    pub lives: BTreeMap<u32, Life>,
    /// For each site the tickets of all ever committed there, and whose they are.
    pub taken: BTreeMap<u8, BTreeMap<u32, u32>>,
}

#[derive(Default)]
pub struct Life {
    pub sites: Vec<u8>,
    pub tickets: BTreeMap<u8, u32>,
    pub prepared: BTreeSet<u8>,
    pub begun: u64,
    pub committed: Option<u64>,
    /// Aborted, or decided as a cycle.
    pub dropped: Option<u64>,
    pub forgotten: Option<u64>,
}

impl Life {
    pub fn is_over(&self) -> bool {
        self.committed.is_some() || self.dropped.is_some()
    }

    pub fn was_active_at(&self, moment: u64) -> bool {
        let over = self.committed.or(self.dropped);
        self.begun < moment && over.is_none_or(|at| at > moment)
    }

    pub fn is_kept(&self) -> bool {
        self.committed.is_some() && self.forgotten.is_none()
    }

    pub fn in_table(&self) -> bool {
        self.dropped.is_none() && self.forgotten.is_none()
    }

    pub fn is_prepared(&self) -> bool {
        self.sites.iter().all(|s| self.prepared.contains(s))
    }

    /// At some site that both use this one holds the smaller ticket.
    pub fn precedes(&self, other: &Life) -> bool {
        self.tickets.iter().any(|(site, mine)| other.tickets.get(site).is_some_and(|theirs| mine < theirs))
    }
}

impl History {
    pub fn life(&mut self, number: u32) -> &mut Life {
        self.lives.entry(number).or_default()
    }

    /// Whether the transaction was begun and some statement holds of its life.
    pub fn holds(&self, number: u32, statement: impl Fn(&Life) -> bool) -> bool {
        self.lives.get(&number).is_some_and(statement)
    }

    pub fn kept(&self) -> impl Iterator<Item = (u32, &Life)> {
        self.lives.iter().filter(|(_, life)| life.is_kept()).map(|(&n, life)| (n, life))
    }

    pub fn in_table(&self) -> usize {
        self.lives.values().filter(|life| life.in_table()).count()
    }

    /// The number that the next begin gets, unless all are used up: the first plus one for each begun.
    pub fn next_number(&self) -> Option<u32> {
        u32::try_from(u64::from(self.first) + self.lives.len() as u64).ok()
    }

    /// The greatest of the floor and of all tickets committed at the site before the transaction began.
    pub fn base(&self, number: u32, site: u8) -> u32 {
        let begun = self.lives.get(&number).map_or(0, |life| life.begun);
        let before = self.lives.values().filter(|life| life.committed.is_some_and(|at| at < begun));
        let tickets = before.filter_map(|life| life.tickets.get(&site).copied());
        tickets.chain(self.floors.get(usize::from(site)).copied()).max().unwrap_or(0)
    }

    pub fn held_by_another(&self, number: u32, site: u8, ticket: u32) -> bool {
        let mut others = self.lives.iter().filter(|(&n, life)| n != number && life.in_table());
        others.any(|(_, life)| life.tickets.get(&site) == Some(&ticket))
    }

    /// The paper's removal condition in its own words (Georgakopoulos, Rusinkiewicz, Sheth, section IV, Lemma 1): no
    /// incoming arrow from a kept one, and all that were active when it committed are committed or aborted.
    pub fn may_forget(&self, number: u32) -> bool {
        let Some(life) = self.lives.get(&number) else { return false };
        let Some(moment) = life.committed.filter(|_| life.is_kept()) else { return false };
        let incoming = self.kept().any(|(n, other)| n != number && other.precedes(life));
        let all_over = self.lives.values().all(|other| !other.was_active_at(moment) || other.is_over());
        !incoming && all_over
    }

    /// Whose ticket is the next larger one at each of its sites, among all ever committed. Arrows at one site go from
    /// ticket to ticket, so following only the nearest leads wherever a path of arrows leads.
    pub fn nearest(&self, number: u32) -> Vec<u32> {
        let Some(life) = self.lives.get(&number) else { return Vec::new() };
        let next = |(site, ticket): (&u8, &u32)| {
            let (_, &whose) = self.taken.get(site)?.range(ticket.checked_add(1)?..).next()?;
            Some(whose)
        };
        life.tickets.iter().filter_map(next).collect()
    }

    /// Whether a path of arrows among all ever committed leads from this one back to itself.
    pub fn leads_back(&self, number: u32) -> bool {
        let mut seen = BTreeSet::new();
        let mut left = self.nearest(number);
        while let Some(at) = left.pop() {
            if at == number {
                return true;
            }
            if seen.insert(at) {
                left.extend(self.nearest(at));
            }
        }
        false
    }

    /// The rule of orders over every pair of kept rows: each named once and no other, and of any two that share a site
    /// the one with the smaller ticket there stands earlier.
    pub fn is_order(&self, order: &[u32]) -> bool {
        let place: BTreeMap<u32, usize> = order.iter().copied().zip(0..).collect();
        let kept: Vec<(u32, &Life)> = self.kept().collect();
        let each_once = order.len() == kept.len() && kept.iter().all(|(n, _)| place.contains_key(n));
        let earlier = |a: &(u32, &Life), b: &(u32, &Life)| !a.1.precedes(b.1) || place[&a.0] < place[&b.0];
        each_once && kept.iter().all(|a| kept.iter().all(|b| earlier(a, b)))
    }

    /// Places for all ever committed, forgotten ones too, that follow the arrows; some are missing if there is a cycle.
    pub fn places(&self) -> BTreeMap<u32, usize> {
        let mut waits = BTreeMap::new();
        for (&number, _) in self.committed() {
            waits.entry(number).or_insert(0);
            for next in self.nearest(number) {
                *waits.entry(next).or_insert(0) += 1;
            }
        }
        let mut free: Vec<u32> = waits.iter().filter(|(_, &left)| left == 0).map(|(&n, _)| n).collect();
        let mut place = BTreeMap::new();
        while let Some(number) = free.pop() {
            place.insert(number, place.len());
            for next in self.nearest(number) {
                let left = waits.entry(next).or_insert(0);
                *left -= 1;
                if *left == 0 {
                    free.push(next);
                }
            }
        }
        place
    }

    pub fn committed(&self) -> impl Iterator<Item = (&u32, &Life)> {
        self.lives.iter().filter(|(_, life)| life.committed.is_some())
    }
}
