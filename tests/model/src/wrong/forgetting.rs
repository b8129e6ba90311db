//! Mistakes in forgetting and sweeping (RULES, Forgetting).

use super::{broken, Wrong};
use crate::bytes::Message;
use crate::calls::{self, held_back, may_forget};
use crate::graph::{arrow, predecessors, reached};
use crate::line::Line;
use crate::rules::{Rules, RIGHT};
use crate::table::Table;

pub static WRONG: &[Wrong] = &[
    broken(
        "a transaction is forgotten at its commit",
        Rules {
            effect: |rules, t, m| {
                let line = calls::effect(rules, t, m);
                if let Line::Commit(n) = line {
                    t.all.remove(&n);
                }
                line
            },
            ..RIGHT
        },
    ),
    broken(
        "forget ignores predecessors",
        Rules { condition: |k, t, m| forget(k, t, m, |t, n| !held_back(t, n)), ..RIGHT },
    ),
    broken(
        "forget ignores older active ones",
        Rules { condition: |k, t, m| forget(k, t, m, |t, n| predecessors(&t.kept(), n).is_empty()), ..RIGHT },
    ),
    broken("forget looks at successors", Rules { condition: |k, t, m| forget(k, t, m, no_successors), ..RIGHT }),
    // Counting arrows from active ones as well would be no mistake: whoever holds a smaller ticket than a committed one
    // began before that one committed, so it holds it back anyway.
    broken(
        "any active one holds back",
        Rules { condition: |k, t, m| forget(k, t, m, |t, n| may_forget(t, n) && t.active().next().is_none()), ..RIGHT },
    ),
    broken(
        "an older one has a number below the one recorded",
        Rules { condition: |k, t, m| forget(k, t, m, |t, n| may_forget(&earlier(t, n, -1), n)), ..RIGHT },
    ),
    broken(
        "the number after the one recorded holds back too",
        Rules { condition: |k, t, m| forget(k, t, m, |t, n| may_forget(&earlier(t, n, 1), n)), ..RIGHT },
    ),
    broken(
        "commit records its own number",
        Rules {
            effect: |rules, t, m| {
                let line = calls::effect(rules, t, m);
                if let Line::Commit(n) = line {
                    t.all.entry(n).and_modify(|t| t.committed = Some(n));
                }
                line
            },
            ..RIGHT
        },
    ),
    broken(
        "a forgotten one's tickets no longer count",
        Rules {
            effect: |rules, t, m| {
                let line = calls::effect(rules, t, m);
                if matches!(m, Message::Forget { .. } | Message::Sweep) {
                    let kept = t.kept();
                    for (site, highest) in (0..).zip(t.highest.iter_mut()) {
                        *highest = kept.values().filter_map(|row| row.get(&site).copied()).max().unwrap_or(0);
                    }
                }
                line
            },
            ..RIGHT
        },
    ),
    broken(
        "sweep does not spread along arrows",
        Rules { effect: |r, t, m| sweep(r, t, m, |t| stay(t, |t, n| held_back(t, n))), ..RIGHT },
    ),
    broken(
        "sweep goes over the table once",
        Rules { effect: |r, t, m| sweep(r, t, m, |t| stay(t, |t, n| !may_forget(t, n))), ..RIGHT },
    ),
    broken(
        "sweep spreads one arrow far",
        Rules {
            effect: |r, t, m| {
                sweep(r, t, m, |t| {
                    let held = |&n: &u32| held_back(t, n);
                    let kept = t.kept();
                    stay(t, |_, n| held(&n) || predecessors(&kept, n).iter().any(held))
                })
            },
            ..RIGHT
        },
    ),
    broken(
        "sweep spreads against the arrows",
        Rules {
            effect: |r, t, m| {
                sweep(r, t, m, |t| {
                    let kept = t.kept();
                    stay(t, |t, n| reached(&kept, &[n]).iter().any(|&m| held_back(t, m)))
                })
            },
            ..RIGHT
        },
    ),
    broken(
        "sweep counts what it leaves",
        Rules {
            effect: |rules, t, m| match calls::effect(rules, t, m) {
                Line::Swept(_) => Line::Swept(t.kept().len() as u32),
                line => line,
            },
            ..RIGHT
        },
    ),
    broken(
        "sweep counts and leaves all in the table",
        Rules {
            effect: |rules, t, m| match m {
                Message::Sweep => calls::effect(rules, &mut t.clone(), m),
                _ => calls::effect(rules, t, m),
            },
            ..RIGHT
        },
    ),
];

/// The conditions with another rule for when a transaction may be forgotten.
fn forget(refusal: u8, table: &Table, message: &Message, may: impl Fn(&Table, u32) -> bool) -> bool {
    match refusal {
        9 => message.number().is_some_and(|n| !may(table, n)),
        _ => calls::condition(refusal, table, message),
    }
}

fn no_successors(table: &Table, number: u32) -> bool {
    let kept = table.kept();
    let mine = kept.get(&number).cloned().unwrap_or_default();
    !held_back(table, number) && !kept.values().any(|other| arrow(&mine, other))
}

/// The table with another number recorded at this one's commit.
fn earlier(table: &Table, number: u32, by: i32) -> Table {
    let mut table = table.clone();
    let recorded = table.all.get_mut(&number).and_then(|t| t.committed.as_mut());
    if let Some(last) = recorded {
        *last = last.saturating_add_signed(by);
    }
    table
}

/// The kept committed ones that stay, by some rule.
fn stay(table: &Table, stays: impl Fn(&Table, u32) -> bool) -> Vec<u32> {
    table.kept().into_keys().filter(|&n| stays(table, n)).collect()
}

/// The effects with another rule for what a sweep leaves.
fn sweep(rules: &Rules, table: &mut Table, message: &Message, stay: impl Fn(&Table) -> Vec<u32>) -> Line {
    if *message != Message::Sweep {
        return calls::effect(rules, table, message);
    }
    let stay = stay(table);
    let before = table.all.len();
    table.all.retain(|n, t| t.committed.is_none() || stay.contains(n));
    Line::Swept((before - table.all.len()) as u32)
}
