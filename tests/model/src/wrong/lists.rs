//! Mistakes in orders and proposals, as the service answers them (RULES, Orders).

use super::{broken, visible, Wrong};
use crate::bytes::Message;
use crate::calls;
use crate::graph::{arrow, predecessors};
use crate::line::Line;
use crate::orders::is_order;
use crate::rows::Rows;
use crate::rules::{Rules, RIGHT};
use crate::table::Table;
use crate::writer::smallest_first;
use std::collections::BTreeSet;

pub static WRONG: &[Wrong] = &[
    broken(
        "the order puts the largest number first",
        Rules { effect: |r, t, m| order(r, t, m, |t| largest_first(&t.kept())), ..RIGHT },
    ),
    broken(
        "the order lists the kept rows by number",
        Rules { effect: |r, t, m| order(r, t, m, |t| t.kept().into_keys().collect()), ..RIGHT },
    ),
    broken(
        "the order lists the kept rows by slot",
        Rules { effect: |r, t, m| order(r, t, m, Table::kept_by_place), ..RIGHT },
    ),
    broken(
        "the order takes in active ones",
        Rules {
            effect: |r, t, m| {
                order(r, t, m, |t| smallest_first(&t.all.iter().map(|(&n, t)| (n, t.tickets())).collect()))
            },
            ..RIGHT
        },
    ),
    visible(
        "an empty order ends in a space",
        Rules {
            show: |line| if *line == Line::Order(Vec::new()) { "order ".into() } else { line.to_string() },
            ..RIGHT
        },
    ),
    broken(
        "a proposal may leave one out",
        Rules {
            effect: |r, t, m| {
                propose(r, t, m, |rows, order| {
                    let named: BTreeSet<u32> = order.iter().copied().collect();
                    let rows = rows.iter().filter(|(n, _)| named.contains(n)).map(|(&n, row)| (n, row.clone()));
                    is_order(&rows.collect(), order)
                })
            },
            ..RIGHT
        },
    ),
    broken(
        "a proposal may name one twice",
        Rules {
            effect: |r, t, m| {
                propose(r, t, m, |rows, order| {
                    let mut seen = BTreeSet::new();
                    let once: Vec<u32> = order.iter().copied().filter(|&n| seen.insert(n)).collect();
                    is_order(rows, &once)
                })
            },
            ..RIGHT
        },
    ),
    broken(
        "a proposal may name a stranger",
        Rules {
            effect: |r, t, m| {
                propose(r, t, m, |rows, order| {
                    let known: Vec<u32> = order.iter().copied().filter(|n| rows.contains_key(n)).collect();
                    is_order(rows, &known)
                })
            },
            ..RIGHT
        },
    ),
    broken(
        "a proposal is tested between neighbours only",
        Rules {
            effect: |r, t, m| {
                propose(r, t, m, |rows, order| {
                    let right = |pair: &[u32]| !arrow(&rows[&pair[1]], &rows[&pair[0]]);
                    is_order(&bare(rows), order) && order.windows(2).all(right)
                })
            },
            ..RIGHT
        },
    ),
    broken(
        "a proposal need not follow the tickets",
        Rules { effect: |r, t, m| propose(r, t, m, |rows, order| is_order(&bare(rows), order)), ..RIGHT },
    ),
    broken(
        "only the order that we would write is good",
        Rules { effect: |r, t, m| propose(r, t, m, |rows, order| smallest_first(rows) == order), ..RIGHT },
    ),
    broken("every proposal is bad", Rules { effect: |r, t, m| propose(r, t, m, |_, _| false), ..RIGHT }),
];

/// The effects with another order written.
fn order(rules: &Rules, table: &mut Table, message: &Message, order: impl Fn(&Table) -> Vec<u32>) -> Line {
    match message {
        Message::Order => Line::Order(order(table)),
        _ => calls::effect(rules, table, message),
    }
}

/// The effects with another test of proposals.
fn propose(rules: &Rules, table: &mut Table, message: &Message, good: impl Fn(&Rows, &[u32]) -> bool) -> Line {
    match message {
        Message::Propose { order } if good(&table.kept(), order) => Line::Good,
        Message::Propose { .. } => Line::Bad,
        _ => calls::effect(rules, table, message),
    }
}

/// The same rows with no tickets at all, so with no arrows.
fn bare(rows: &Rows) -> Rows {
    rows.keys().map(|&n| (n, Default::default())).collect()
}

fn largest_first(rows: &Rows) -> Vec<u32> {
    let mut order: Vec<u32> = Vec::new();
    let may_stand = |n: &&u32, order: &[u32]| {
        !order.contains(n) && predecessors(rows, **n).iter().all(|before| order.contains(before))
    };
    while let Some(&next) = rows.keys().rev().find(|n| may_stand(n, &order)) {
        order.push(next);
    }
    order
}
