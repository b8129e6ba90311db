//! Full tables. Each round begins as many transactions as there is room for and lays their tickets out in blocks, one
//! above the other at every site: a ring closes a cycle of a chosen length and no shorter one, a chain just misses
//! it, a ladder strings many rows together, a clump is random. An old transaction stays active meanwhile, so that
//! nothing can be forgotten, and at last takes tickets between those of the others, or gives up.

use super::Maker;
use crate::bytes::Message;
use crate::line::Line;
use crate::random::Random;
use crate::rows::{Tickets, SLOTS};

pub fn fill(m: &mut Maker, length: usize) {
    if m.table().is_closed() {
        let sites = 2 + m.random.below(7);
        let floors = (0..sites).map(|_| m.random.below(3) as u32).collect();
        let first = match m.random.below(20) {
            0 => m.random.word() >> 1 | 1,
            // Numbers run out while the table is full.
            1 => u32::MAX - 31 - m.random.below(150) as u32,
            _ => 1,
        };
        m.say(Message::Open { first, floors });
    }
    let end = m.made + length;
    while m.made < end {
        round(m);
    }
}

fn round(m: &mut Maker) {
    let floor: Vec<u32> = m.table().all.values().fold(m.table().highest.clone(), |mut top, t| {
        for (site, ticket) in t.tickets() {
            let at = &mut top[usize::from(site)];
            *at = ticket.max(*at);
        }
        top
    });
    let anchor = m.random.chance(75).then(|| Message::Begin { sites: m.site_list() });
    let anchor = anchor.and_then(|begin| number_of(m.say(begin)));
    let room = SLOTS - m.table().all.len().min(SLOTS);
    let mut top = floor.clone();
    let mut plan = Vec::new();
    while plan.len() < room {
        plan.extend(block(&mut m.random, &mut top));
    }
    plan.truncate(room);
    m.random.shuffle(&mut plan);
    let mut work: Vec<Vec<Message>> = Vec::new();
    for tickets in plan {
        let sites = tickets.keys().fold(0, |list, site| list | 1 << site);
        if let Some(number) = number_of(m.say(Message::Begin { sites })) {
            work.push(steps(m, number, &tickets));
        }
    }
    while !work.is_empty() {
        let at = m.random.below(work.len());
        match work[at].pop() {
            Some(message) => drop(m.say(message)),
            None => drop(work.swap_remove(at)),
        }
        if m.random.chance(4) {
            meddle(m);
        }
    }
    if let Some(number) = anchor {
        last_words(m, number, &floor, &top);
    }
    clear(m);
}

fn number_of(line: Line) -> Option<u32> {
    match line {
        Line::Begin(number) => Some(number),
        _ => None,
    }
}

/// A transaction's messages from its first ticket to its decision, the last one first.
fn steps(m: &mut Maker, number: u32, tickets: &Tickets) -> Vec<Message> {
    let mut sites: Vec<u8> = tickets.keys().copied().collect();
    m.random.shuffle(&mut sites);
    let mut out = vec![match m.random.below(40) {
        0 => Message::Abort { number },
        _ => Message::Decide { number },
    }];
    for site in sites {
        out.push(Message::Prepared { number, site });
        out.push(Message::Ticket { number, site, ticket: tickets[&site] });
    }
    out
}

/// Some transactions whose tickets at every site lie above all earlier blocks. Every second ticket is left free.
fn block(random: &mut Random, top: &mut [u32]) -> Vec<Tickets> {
    let sites = top.len();
    let mut ring: Vec<u8> = (0..sites as u8).collect();
    random.shuffle(&mut ring);
    // For each site who uses it, in the sequence of their tickets.
    let mut users: Vec<Vec<usize>> = vec![Vec::new(); sites];
    let count = match random.below(10) {
        // A ring or, with one site the other way round, a chain. Longer than the sites it could not be: two arrows at
        // one site shorten a cycle.
        shape @ 0..=5 => {
            let long = random.chance(50);
            let count = if long { sites } else { 2 + random.below(sites - 1) };
            for at in 0..count {
                users[usize::from(ring[at])] = vec![(at + count - 1) % count, at];
            }
            if shape >= 4 {
                users[usize::from(ring[random.below(count)])].reverse();
            }
            count
        }
        // A ladder: each row shares a site with the next one.
        6 | 7 => {
            let count = 4 + random.below(20);
            for row in 0..count {
                users[usize::from(ring[row % sites])].push(row);
                users[usize::from(ring[(row + 1) % sites])].push(row);
            }
            count
        }
        shape => {
            let count = 1 + random.below(8);
            for site in users.iter_mut() {
                *site = (0..count).filter(|_| random.chance(45)).collect();
                if shape == 9 {
                    random.shuffle(site);
                }
            }
            count
        }
    };
    let mut rows = vec![Tickets::new(); count];
    for (site, rows_there) in users.iter().enumerate() {
        for &row in rows_there {
            top[site] = top[site].saturating_add(2);
            rows[row].insert(site as u8, top[site]);
        }
    }
    rows.retain(|tickets| !tickets.is_empty());
    rows
}

/// Housekeeping and questions in between, most of them against a table that holds everything back.
fn meddle(m: &mut Maker) {
    let kept = m.kept();
    let message = match m.random.below(14) {
        0..=4 => Message::Forget { number: m.random.pick(&kept).unwrap_or(0) },
        5..=6 => Message::Order,
        7..=10 => Message::Propose { order: m.proposal() },
        11..=12 => Message::Begin { sites: m.site_list() },
        _ => Message::Sweep,
    };
    m.say(message);
}

/// The old one takes its tickets at last, low at some sites and high at others, or is aborted.
fn last_words(m: &mut Maker, number: u32, floor: &[u32], top: &[u32]) {
    if m.random.chance(30) {
        m.say(Message::Abort { number });
        return;
    }
    let sites: Vec<u8> = m.table().all.get(&number).map(|t| t.parts.keys().copied().collect()).unwrap_or_default();
    for site in sites {
        let at = usize::from(site);
        let steps = (top[at] - floor[at]) / 2;
        let step = match m.random.below(3) {
            0 => 0,
            1 => steps,
            _ => m.random.below(steps as usize + 1) as u32,
        };
        m.say(Message::Ticket { number, site, ticket: floor[at] + 2 * step + 1 });
        m.say(Message::Prepared { number, site });
    }
    m.say(Message::Sweep);
    m.say(Message::Decide { number });
}

/// Forgets some in random sequence, then perhaps sweeps; what is left goes into the next round.
fn clear(m: &mut Maker) {
    m.say(Message::Order);
    let mut kept = m.kept();
    m.random.shuffle(&mut kept);
    let tries = m.random.below(kept.len() + 1);
    for &number in &kept[..tries] {
        m.say(Message::Forget { number });
    }
    if m.random.chance(70) {
        m.say(Message::Sweep);
        m.say(Message::Order);
    }
    for number in m.active() {
        if m.random.chance(90) {
            m.say(Message::Abort { number });
        }
    }
}
