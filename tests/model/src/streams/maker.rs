//! What all generators share: messages go out and to a model at once, so that a generator knows the numbers and the
//! state of its transactions. Knowing them is what leads it into the interesting corners.

use super::Stream;
use crate::bytes::Message;
use crate::desk::Desk;
use crate::line::Line;
use crate::random::Random;
use crate::rules::RIGHT_RULES;
use crate::table::Table;
use crate::writer::smallest_first;

pub struct Maker {
    pub random: Random,
    pub out: Stream,
    /// How many pieces were made, also those already taken out of `out`.
    pub made: usize,
    desk: Desk,
}

impl Maker {
    pub fn new(random: Random) -> Maker {
        Maker { random, out: Vec::new(), made: 0, desk: Desk::new(&RIGHT_RULES) }
    }

    pub fn table(&self) -> &Table {
        &self.desk.table
    }

    pub fn say(&mut self, message: Message) -> Line {
        self.out.push(message.bytes());
        self.made += 1;
        self.desk.call(&message)
    }

    pub fn raw(&mut self, bytes: Vec<u8>) {
        self.desk.feed(&bytes);
        self.out.push(bytes);
        self.made += 1;
    }

    pub fn active(&self) -> Vec<u32> {
        self.table().active().collect()
    }

    pub fn kept(&self) -> Vec<u32> {
        self.table().kept().into_keys().collect()
    }

    /// A good opening. Most floors are low and most first numbers small; some stand close to the end.
    pub fn open(&mut self, sites: usize) {
        let random = &mut self.random;
        let high = random.chance(4);
        let floors = (0..sites).map(|_| match random.below(10) {
            0..=5 => 0,
            6..=8 => random.below(6) as u32,
            _ if high => u32::MAX - random.below(4) as u32,
            _ => random.word() >> 1,
        });
        let floors = floors.collect();
        let first = match random.below(10) {
            0..=5 => 1,
            6..=7 => 1 + random.below(1000) as u32,
            8 => random.word().max(1),
            _ => u32::MAX - random.below(60) as u32,
        };
        self.say(Message::Open { first, floors });
    }

    /// A site list with some listed sites, all of which the table has.
    pub fn site_list(&mut self) -> u8 {
        let all = match self.table().highest.len() {
            0 => 1,
            sites => (0xff_u16 >> (8 - sites.min(8))) as u8,
        };
        let few = self.random.chance(60);
        let mut list = self.random.byte() & all;
        if few {
            list &= self.random.byte();
        }
        match list {
            0 => 1 << self.random.below(self.table().highest.len().max(1)),
            list => list,
        }
    }

    /// A ticket for this transaction at this site: mostly a fresh one, often one that goes between others, now and
    /// then one that must be refused.
    pub fn ticket(&mut self, number: u32, site: u8) -> u32 {
        let base = self.table().part(number, site).map_or(0, |p| p.base);
        let held: Vec<u32> = self.table().all.values().filter_map(|t| t.parts.get(&site)?.ticket).collect();
        let top = held.iter().copied().max().unwrap_or(0).max(base);
        let random = &mut self.random;
        match random.below(1000) {
            0..=499 => top.saturating_add(1 + random.below(4) as u32),
            500..=799 => base.saturating_add(1 + random.below((top - base) as usize + 2) as u32),
            800..=869 => base.saturating_sub(random.below(3) as u32),
            870..=949 => random.pick(&held).unwrap_or(1),
            950..=994 => random.below(60) as u32,
            995..=997 => 0,
            // Rare, since a site where this one commits can give no further ticket.
            _ => u32::MAX - random.below(2) as u32,
        }
    }

    /// The next thing to be said of an active transaction on its way to a decision.
    pub fn next_step(&mut self, number: u32) -> Message {
        let parts = self.table().all.get(&number).map(|t| t.parts.clone()).unwrap_or_default();
        let open: Vec<u8> = parts.iter().filter(|(_, p)| !p.prepared).map(|(&s, _)| s).collect();
        match self.random.pick(&open) {
            None => Message::Decide { number },
            Some(site) if parts[&site].ticket.is_some() => Message::Prepared { number, site },
            Some(site) => Message::Ticket { number, site, ticket: self.ticket(number, site) },
        }
    }

    /// An order to propose: a right one, or one that is wrong in one of the ways an order can be.
    pub fn proposal(&mut self) -> Vec<u32> {
        let mut order = smallest_first(&self.table().kept());
        let length = order.len();
        let random = &mut self.random;
        let (a, b) = (random.below(length), random.below(length));
        match random.below(9) {
            0..=2 => (),
            3 if length > 1 => order.swap(a, b),
            4 if length > 1 => order.swap(a.min(length - 2), a.min(length - 2) + 1),
            5 if length > 0 => drop(order.remove(a)),
            6 if length > 0 => order[a] = order[b],
            7 if length > 0 => order.insert(a, order[b]),
            8 if length > 0 => order[a] = random.word(),
            3 => order.push(random.below(4) as u32),
            _ => random.shuffle(&mut order),
        }
        order.truncate(39);
        order
    }
}
