//! Mistakes with stages and sites (RULES, Calls and Refusals).

use super::{broken, Wrong};
use crate::bytes::Message;
use crate::calls;
use crate::rules::{Rules, RIGHT};
use crate::table::{Table, Transaction};

pub static WRONG: &[Wrong] = &[
    broken(
        "a second ticket replaces the first",
        Rules {
            condition: |k, t, m| match (k, m) {
                (4, &Message::Ticket { number, site, .. }) => t.part(number, site).is_some_and(|p| p.prepared),
                _ => calls::condition(k, t, m),
            },
            ..RIGHT
        },
    ),
    broken(
        "prepared needs no ticket",
        Rules {
            condition: |k, t, m| match (k, m) {
                (4, &Message::Prepared { number, site }) => t.part(number, site).is_some_and(|p| p.prepared),
                _ => calls::condition(k, t, m),
            },
            ..RIGHT
        },
    ),
    broken(
        "prepared twice is fine",
        Rules {
            condition: |k, t, m| match (k, m) {
                (4, &Message::Prepared { number, site }) => t.part(number, site).is_some_and(|p| p.ticket.is_none()),
                _ => calls::condition(k, t, m),
            },
            ..RIGHT
        },
    ),
    broken(
        "decide asks for tickets only",
        Rules { condition: |k, t, m| undecided(k, t, m, |t| t.parts.values().any(|p| p.ticket.is_none())), ..RIGHT },
    ),
    broken(
        "decide looks at the lowest site only",
        Rules {
            condition: |k, t, m| undecided(k, t, m, |t| t.parts.values().next().is_some_and(|p| !p.prepared)),
            ..RIGHT
        },
    ),
    broken(
        "a committed one can be aborted",
        Rules {
            condition: |k, t, m| !(k == 4 && matches!(m, Message::Abort { .. })) && calls::condition(k, t, m),
            ..RIGHT
        },
    ),
    broken(
        "an active one can be forgotten",
        Rules {
            condition: |k, t, m| !(k == 4 && matches!(m, Message::Forget { .. })) && calls::condition(k, t, m),
            ..RIGHT
        },
    ),
    broken(
        "a site the table lacks may be listed",
        Rules {
            condition: |k, t, m| match (k, m) {
                (3, Message::Begin { sites }) => *sites == 0,
                _ => calls::condition(k, t, m),
            },
            ..RIGHT
        },
    ),
    broken(
        "an empty site list is fine",
        Rules {
            condition: |k, t, m| !(k == 3 && matches!(m, Message::Begin { sites: 0 })) && calls::condition(k, t, m),
            ..RIGHT
        },
    ),
    broken(
        "a report for an unlisted site is 4",
        Rules {
            condition: |k, t, m| match (k, m) {
                (3, Message::Ticket { site, .. } | Message::Prepared { site, .. }) => !t.has_site(*site),
                (4, &Message::Ticket { number, site, .. } | &Message::Prepared { number, site }) => {
                    t.part(number, site).is_none() || calls::condition(k, t, m)
                }
                _ => calls::condition(k, t, m),
            },
            ..RIGHT
        },
    ),
];

/// The conditions with another rule for when a transaction is not ready for its decision.
fn undecided(refusal: u8, table: &Table, message: &Message, not_ready: impl Fn(&Transaction) -> bool) -> bool {
    match (refusal, message) {
        (4, Message::Decide { number }) => table.all.get(number).is_some_and(|t| t.committed.is_some() || not_ready(t)),
        _ => calls::condition(refusal, table, message),
    }
}
