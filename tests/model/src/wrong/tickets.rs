//! Mistakes with tickets, bases and highest tickets (RULES, The table and Refusals).

use super::{after_begin, broken, Wrong};
use crate::bytes::Message;
use crate::calls;
use crate::line::Line;
use crate::rules::{Rules, RIGHT};
use crate::table::{Table, Transaction};

pub static WRONG: &[Wrong] = &[
    broken(
        "the base is taken at report time",
        Rules {
            condition: |k, t, m| match (k, m) {
                (5, Message::Ticket { site, ticket, .. }) => {
                    t.highest.get(usize::from(*site)).is_some_and(|top| ticket <= top)
                }
                _ => calls::condition(k, t, m),
            },
            ..RIGHT
        },
    ),
    broken(
        "a ticket equal to the base is taken",
        Rules {
            condition: |k, t, m| match (k, m) {
                (5, &Message::Ticket { number, site, ticket }) => t.part(number, site).is_some_and(|p| ticket < p.base),
                _ => calls::condition(k, t, m),
            },
            ..RIGHT
        },
    ),
    broken(
        "ticket 0 is not looked at",
        Rules {
            condition: |k, t, m| match (k, m) {
                (5, &Message::Ticket { ticket: 0, number, site }) => t.part(number, site).is_some_and(|p| p.base > 0),
                _ => calls::condition(k, t, m),
            },
            ..RIGHT
        },
    ),
    broken(
        "bases are not recorded",
        Rules { effect: |r, t, m| after_begin(r, t, m, |b, _| b.parts.values_mut().for_each(|p| p.base = 0)), ..RIGHT },
    ),
    broken(
        "the base of the first site is used for all",
        Rules {
            effect: |r, t, m| {
                after_begin(r, t, m, |b, _| {
                    let first = b.parts.values().next().map_or(0, |p| p.base);
                    b.parts.values_mut().for_each(|p| p.base = first);
                })
            },
            ..RIGHT
        },
    ),
    broken(
        "commit does not raise the highest ticket",
        Rules { effect: |r, t, m| after_commit(r, t, m, |t, before, _| t.highest = before), ..RIGHT },
    ),
    broken(
        "commit sets the highest ticket also downward",
        Rules {
            effect: |r, t, m| {
                after_commit(r, t, m, |t, _, n| {
                    for (site, ticket) in t.all.get(&n).map(|t| t.tickets()).unwrap_or_default() {
                        t.highest[usize::from(site)] = ticket;
                    }
                })
            },
            ..RIGHT
        },
    ),
    broken(
        "commit raises only the lowest listed site",
        Rules {
            effect: |r, t, m| {
                after_commit(r, t, m, |t, before, n| {
                    let lowest = t.all.get(&n).and_then(|t| t.parts.keys().next().copied());
                    for (site, old) in (0..).zip(before).filter(|&(site, _)| Some(site) != lowest) {
                        t.highest[usize::from(site)] = old;
                    }
                })
            },
            ..RIGHT
        },
    ),
    broken(
        "a report raises the highest ticket",
        Rules {
            effect: |r, t, m| {
                let line = calls::effect(r, t, m);
                if let Message::Ticket { site, ticket, .. } = m {
                    if let Some(top) = t.highest.get_mut(usize::from(*site)) {
                        *top = (*top).max(*ticket);
                    }
                }
                line
            },
            ..RIGHT
        },
    ),
    broken(
        "equal tickets are looked for among committed ones only",
        Rules { condition: |k, t, m| equal(k, t, m, |other, _| other.committed.is_some()), ..RIGHT },
    ),
    broken(
        "equal tickets are looked for among active ones only",
        Rules { condition: |k, t, m| equal(k, t, m, |other, _| other.committed.is_none()), ..RIGHT },
    ),
    broken(
        "equal tickets at other sites clash",
        Rules {
            condition: |k, t, m| match (k, m) {
                (6, Message::Ticket { number, ticket, .. }) => {
                    let mut others = t.all.iter().filter(|(n, _)| *n != number);
                    others.any(|(_, t)| t.parts.values().any(|p| p.ticket == Some(*ticket)))
                }
                _ => calls::condition(k, t, m),
            },
            ..RIGHT
        },
    ),
    broken(
        "a refused ticket is held",
        Rules {
            refused: |t, m, k| {
                if let (&Message::Ticket { number, site, ticket }, 5 | 6) = (m, k) {
                    if let Some(part) = t.part_mut(number, site) {
                        part.ticket = Some(ticket);
                    }
                }
            },
            ..RIGHT
        },
    ),
];

/// The effects with something done after a commit; it is told the highest tickets from before.
fn after_commit(rules: &Rules, table: &mut Table, message: &Message, then: impl Fn(&mut Table, Vec<u32>, u32)) -> Line {
    let before = table.highest.clone();
    let line = calls::effect(rules, table, message);
    if let Line::Commit(number) = line {
        then(table, before, number);
    }
    line
}

/// The conditions with 6 looked for only among some of the others.
fn equal(refusal: u8, table: &Table, message: &Message, among: impl Fn(&Transaction, u32) -> bool) -> bool {
    match (refusal, message) {
        (6, Message::Ticket { number, site, ticket }) => {
            let mut others = table.all.iter().filter(|(&n, t)| n != *number && among(t, n));
            others.any(|(_, t)| t.parts.get(site).is_some_and(|p| p.ticket == Some(*ticket)))
        }
        _ => calls::condition(refusal, table, message),
    }
}
