//! The calls: which refusals each is tested for and in what sequence, when each refusal holds, and what a call that
//! is not refused does (RULES, Calls and Refusals). Refusals 10 and 11 belong to the bytes, 12 to 14 to orders.

use crate::bytes::Message;
use crate::graph::{has_cycle, predecessors, reached};
use crate::line::Line;
use crate::rows::{MOST_SITES, SLOTS};
use crate::rules::Rules;
use crate::table::{sites_of, Part, Table, Transaction};
use crate::{orders, writer};

/// The refusals of a call in the sequence of their checks; 1 for a closed table comes ahead in all but open.
pub fn sequence(message: &Message) -> &'static [u8] {
    match message {
        Message::Open { .. } => &[4, 1],
        Message::Begin { .. } => &[1, 3, 8, 7],
        Message::Ticket { .. } => &[1, 2, 3, 4, 5, 6],
        Message::Prepared { .. } => &[1, 2, 3, 4],
        Message::Abort { .. } | Message::Decide { .. } => &[1, 2, 4],
        Message::Forget { .. } => &[1, 2, 4, 9],
        Message::Sweep | Message::Propose { .. } | Message::Order => &[1],
    }
}

/// Whether the condition of a refusal holds, whatever the other checks say.
pub fn condition(refusal: u8, table: &Table, message: &Message) -> bool {
    match refusal {
        1 => match message {
            Message::Open { first, floors } => *first == 0 || floors.is_empty() || floors.len() > MOST_SITES,
            _ => table.is_closed(),
        },
        2 => message.number().is_some_and(|n| !table.all.contains_key(&n)),
        3 => wrong_site(table, message),
        4 => wrong_stage(table, message),
        5 => match *message {
            Message::Ticket { number, site, ticket } => table.part(number, site).is_some_and(|p| ticket <= p.base),
            _ => false,
        },
        6 => match *message {
            Message::Ticket { number, site, ticket } => {
                let mut others = table.all.iter().filter(|(&n, _)| n != number);
                others.any(|(_, t)| t.parts.get(&site).is_some_and(|p| p.ticket == Some(ticket)))
            }
            _ => false,
        },
        7 => table.all.len() >= SLOTS,
        8 => table.last == u32::MAX,
        9 => message.number().is_some_and(|n| !may_forget(table, n)),
        _ => false,
    }
}

fn wrong_site(table: &Table, message: &Message) -> bool {
    match *message {
        Message::Begin { sites } => sites == 0 || sites_of(sites).iter().any(|&s| !table.has_site(s)),
        Message::Ticket { number, site, .. } | Message::Prepared { number, site } => {
            !table.has_site(site) || table.all.get(&number).is_some_and(|t| !t.parts.contains_key(&site))
        }
        _ => false,
    }
}

fn wrong_stage(table: &Table, message: &Message) -> bool {
    let committed = |n: &u32| table.all.get(n).is_some_and(|t| t.committed.is_some());
    match message {
        Message::Open { .. } => !table.is_closed(),
        Message::Ticket { number, site, .. } => table.part(*number, *site).is_some_and(|p| p.ticket.is_some()),
        Message::Prepared { number, site } => {
            table.part(*number, *site).is_some_and(|p| p.ticket.is_none() || p.prepared)
        }
        Message::Abort { number } => committed(number),
        Message::Decide { number } => {
            committed(number) || table.all.get(number).is_some_and(|t| t.parts.values().any(|p| !p.prepared))
        }
        Message::Forget { number } => !committed(number),
        _ => false,
    }
}

/// RULES, Forgetting: nothing kept goes before it, and whoever was active at its commit is over.
pub fn may_forget(table: &Table, number: u32) -> bool {
    predecessors(&table.kept(), number).is_empty() && !held_back(table, number)
}

/// Some active transaction has a number at or below the last one begun when this one committed.
pub fn held_back(table: &Table, number: u32) -> bool {
    let Some(last) = table.all.get(&number).and_then(|t| t.committed) else { return false };
    table.active().any(|n| n <= last)
}

/// Whether the candidate and the kept committed ones make a cycle.
pub fn makes_cycle(table: &Table, number: u32) -> bool {
    let mut rows = table.kept();
    rows.extend(table.all.get(&number).map(|t| (number, t.tickets())));
    has_cycle(&rows)
}

/// What a call does that no check caught. It is written so as to do nothing where it finds nothing, since the wrong
/// rules let calls through that the right ones refuse.
pub fn effect(rules: &Rules, table: &mut Table, message: &Message) -> Line {
    match message {
        Message::Open { first, floors } => {
            let last = first.saturating_sub(1);
            *table = Table { highest: floors.clone(), last, ..Table::default() };
            Line::Ok
        }
        Message::Begin { sites } => Line::Begin(begin(table, &sites_of(*sites))),
        Message::Ticket { number, site, ticket } => {
            if let Some(part) = table.part_mut(*number, *site) {
                part.ticket = Some(*ticket);
            }
            Line::Ok
        }
        Message::Prepared { number, site } => {
            if let Some(part) = table.part_mut(*number, *site) {
                part.prepared = true;
            }
            Line::Ok
        }
        Message::Abort { number } | Message::Forget { number } => {
            table.all.remove(number);
            Line::Ok
        }
        Message::Decide { number } => {
            if (rules.makes_cycle)(table, *number) {
                table.all.remove(number);
                Line::Cycle(*number)
            } else {
                commit(table, *number);
                Line::Commit(*number)
            }
        }
        Message::Sweep => Line::Swept(sweep(table)),
        Message::Propose { order } => match orders::is_order(&table.kept(), order) {
            true => Line::Good,
            false => Line::Bad,
        },
        Message::Order => Line::Order(writer::smallest_first(&table.kept())),
    }
}

/// Gives the next number, the lowest free slot, and today's highest committed tickets as bases.
pub fn begin(table: &mut Table, sites: &[u8]) -> u32 {
    let base = |site: u8| table.highest.get(usize::from(site)).copied().unwrap_or(0);
    let parts = sites.iter().map(|&s| (s, Part { base: base(s), ticket: None, prepared: false })).collect();
    let place = table.lowest_free_place();
    let number = table.last.wrapping_add(1);
    table.last = number;
    table.all.insert(number, Transaction { place, parts, committed: None });
    number
}

/// Records the last number begun, and raises the highest committed ticket of each listed site where its own is larger.
pub fn commit(table: &mut Table, number: u32) {
    let last = table.last;
    let Some(transaction) = table.all.get_mut(&number) else { return };
    transaction.committed = Some(last);
    for (site, ticket) in transaction.tickets() {
        if let Some(highest) = table.highest.get_mut(usize::from(site)) {
            *highest = ticket.max(*highest);
        }
    }
}

/// Keeps what is reached from a kept committed one that an older active one holds back; forgets the rest.
pub fn sweep(table: &mut Table) -> u32 {
    let kept = table.kept();
    let held: Vec<u32> = kept.keys().copied().filter(|&n| held_back(table, n)).collect();
    let stay = reached(&kept, &held);
    let gone: Vec<u32> = kept.keys().copied().filter(|n| !stay.contains(n)).collect();
    for number in &gone {
        table.all.remove(number);
    }
    gone.len() as u32
}
