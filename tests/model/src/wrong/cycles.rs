//! Mistakes in the decision (RULES, Graph and decision).

use super::{broken, Wrong};
use crate::bytes::Message;
use crate::calls;
use crate::graph::{arrow, has_cycle};
use crate::line::Line;
use crate::rows::{Rows, Tickets};
use crate::rules::{Rules, RIGHT};
use crate::table::Table;
use std::collections::BTreeSet;

pub static WRONG: &[Wrong] = &[
    broken("only two-transaction cycles count", Rules { makes_cycle: |t, n| cycle_within(t, n, 2), ..RIGHT }),
    broken("only cycles of up to four count", Rules { makes_cycle: |t, n| cycle_within(t, n, 4), ..RIGHT }),
    broken("only cycles of up to seven count", Rules { makes_cycle: |t, n| cycle_within(t, n, 7), ..RIGHT }),
    broken(
        "tickets must rise in commit order",
        Rules {
            makes_cycle: |t, n| {
                own(t, n).iter().any(|(&s, k)| t.highest.get(usize::from(s)).is_some_and(|top| k < top))
            },
            ..RIGHT
        },
    ),
    broken(
        "arrows of active transactions count",
        Rules { makes_cycle: |t, _| has_cycle(&t.all.iter().map(|(&n, t)| (n, t.tickets())).collect()), ..RIGHT },
    ),
    broken(
        "only the lowest shared site makes an arrow",
        Rules { makes_cycle: |t, n| has_cycle(&lowest_shared(t, n)), ..RIGHT },
    ),
    broken(
        "the last of eight sites makes no arrows",
        Rules {
            makes_cycle: |t, n| has_cycle(&rows(t, n).into_iter().map(|(n, row)| (n, without(row, 7))).collect()),
            ..RIGHT
        },
    ),
    broken(
        "the last slot is left out of the graph",
        Rules {
            makes_cycle: |t, n| {
                let last = |m: &u32| *m != n && t.all.get(m).is_some_and(|t| t.place == 31);
                has_cycle(&rows(t, n).into_iter().filter(|(m, _)| !last(m)).collect())
            },
            ..RIGHT
        },
    ),
    broken("decide always commits", Rules { makes_cycle: |_, _| false, ..RIGHT }),
    broken("decide always aborts", Rules { makes_cycle: |_, _| true, ..RIGHT }),
    broken(
        "only the first decisions test the graph",
        Rules { makes_cycle: |t, n| t.kept().len() < 2 && calls::makes_cycle(t, n), ..RIGHT },
    ),
    broken(
        "a cycle leaves the transaction in the table",
        Rules {
            effect: |rules, t, m| match m {
                Message::Decide { number } if (rules.makes_cycle)(t, *number) => Line::Cycle(*number),
                _ => calls::effect(rules, t, m),
            },
            ..RIGHT
        },
    ),
    broken(
        "decide answers and leaves the table untouched",
        Rules {
            effect: |rules, t, m| match m {
                Message::Decide { .. } => calls::effect(rules, &mut t.clone(), m),
                _ => calls::effect(rules, t, m),
            },
            ..RIGHT
        },
    ),
];

fn own(table: &Table, number: u32) -> Tickets {
    table.all.get(&number).map(|t| t.tickets()).unwrap_or_default()
}

fn rows(table: &Table, number: u32) -> Rows {
    let mut rows = table.kept();
    rows.insert(number, own(table, number));
    rows
}

fn without(mut row: Tickets, site: u8) -> Tickets {
    row.remove(&site);
    row
}

/// A cycle through the candidate of at most so many arrows.
fn cycle_within(table: &Table, number: u32, most: usize) -> bool {
    let rows = rows(table, number);
    let mut at = BTreeSet::from([number]);
    for _ in 0..most {
        let next =
            |n: &u32| rows.iter().filter(|(_, other)| arrow(&rows[n], other)).map(|(&m, _)| m).collect::<Vec<_>>();
        at = at.iter().flat_map(next).collect();
        if at.contains(&number) {
            return true;
        }
    }
    false
}

/// The rows with each kept one cut down to the lowest site it shares with the candidate.
fn lowest_shared(table: &Table, number: u32) -> Rows {
    let mine = own(table, number);
    let mut rows = rows(table, number);
    for (n, row) in rows.iter_mut() {
        if let Some(lowest) = row.keys().copied().find(|site| mine.contains_key(site)).filter(|_| *n != number) {
            row.retain(|&site, _| site == lowest || !mine.contains_key(&site));
        }
    }
    rows
}
