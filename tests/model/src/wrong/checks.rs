//! Wrong order checks on bytes (RULES, The C call): the cases for the C call must notice each.

use crate::graph::arrow;
use crate::orders::{c_call, good_rows, is_order, listed_of, words_of, Listed, BAD_TABLE, NO, YES};
use crate::rows::Rows;
use std::collections::BTreeSet;

pub struct WrongCheck {
    pub name: &'static str,
    pub check: fn(&[u8], &[u8]) -> u32,
}

pub static WRONG: &[WrongCheck] = &[
    WrongCheck { name: "check: the answer is always yes", check: |_, _| YES },
    WrongCheck { name: "check: the answer is always no", check: |_, _| NO },
    WrongCheck { name: "check: no bad table", check: |rows, order| if c_call(rows, order) == YES { YES } else { NO } },
    WrongCheck {
        name: "check: 33 rows are fine",
        check: |rows, order| {
            let parts = (rows.len() == 33 * 36).then(|| rows.split_at(36));
            match parts.map(|(first, rest)| (c_call(first, &[]), c_call(rest, &[]))) {
                Some((BAD_TABLE, _) | (_, BAD_TABLE)) => BAD_TABLE,
                Some(_) => NO,
                None => c_call(rows, order),
            }
        },
    },
    WrongCheck {
        name: "check: 31 rows at most",
        check: |rows, order| if rows.len() == 1152 { BAD_TABLE } else { c_call(rows, order) },
    },
    WrongCheck {
        name: "check: bytes behind the last row are ignored",
        check: |rows, order| c_call(&rows[..rows.len() / 36 * 36], order),
    },
    WrongCheck {
        name: "check: bytes behind the last number are ignored",
        check: |rows, order| c_call(rows, &order[..order.len() / 4 * 4]),
    },
    WrongCheck {
        name: "check: an order of broken length is 13",
        check: |rows, order| if order.len() % 4 != 0 { BAD_TABLE } else { c_call(rows, order) },
    },
    WrongCheck {
        name: "check: an order of broken length is no before 13",
        check: |rows, order| if order.len() % 4 != 0 { NO } else { c_call(rows, order) },
    },
    WrongCheck {
        name: "check: an order of wrong length is no before 13",
        check: |rows, order| if order.len() / 4 != rows.len() / 36 { NO } else { c_call(rows, order) },
    },
    WrongCheck {
        name: "check: number 0 is fine",
        check: |rows, order| with(rows, order, |l| l.iter_mut().filter(|r| r.0 == 0).for_each(|r| r.0 = 7777)),
    },
    WrongCheck {
        name: "check: equal rows are one row",
        check: |rows, order| {
            with(rows, order, |l| {
                let mut seen = BTreeSet::new();
                l.retain(|row| seen.insert(*row));
            })
        },
    },
    WrongCheck {
        name: "check: equal numbers are fine where they are not neighbours",
        check: |rows, order| {
            let Some(l) = listed_of(rows) else { return c_call(rows, order) };
            let apart = (0..l.len()).any(|a| (a + 2..l.len()).any(|b| l[a].0 == l[b].0));
            let near = l.windows(2).any(|p| p[0].0 == p[1].0);
            if apart && !near {
                NO
            } else {
                c_call(rows, order)
            }
        },
    },
    WrongCheck {
        name: "check: equal tickets are fine",
        check: |rows, order| match (listed_of(rows), c_call(rows, order)) {
            (Some(l), BAD_TABLE) if numbers_good(&l) => NO,
            (_, answer) => answer,
        },
    },
    WrongCheck {
        name: "check: equal tickets at the last site are fine",
        check: |rows, order| match (listed_of(rows), c_call(rows, order)) {
            (Some(mut l), BAD_TABLE) => {
                l.iter_mut().for_each(|row| row.1[7] = 0);
                good_rows(&l).map_or(BAD_TABLE, |_| NO)
            }
            (_, answer) => answer,
        },
    },
    WrongCheck {
        name: "check: two zeros at a site are equal tickets",
        check: |rows, order| {
            let l = listed_of(rows).unwrap_or_default();
            let zeros = |site: usize| l.iter().filter(|row| row.1[site] == 0).count();
            if (0..8).any(|site| zeros(site) > 1) {
                BAD_TABLE
            } else {
                c_call(rows, order)
            }
        },
    },
    WrongCheck {
        name: "check: equal tickets at two sites are equal",
        check: |rows, order| {
            let l = listed_of(rows).unwrap_or_default();
            let held: Vec<u32> = l.iter().flat_map(|row| row.1).filter(|&k| k != 0).collect();
            let distinct: BTreeSet<u32> = held.iter().copied().collect();
            if distinct.len() < held.len() {
                BAD_TABLE
            } else {
                c_call(rows, order)
            }
        },
    },
    WrongCheck {
        name: "check: a row without tickets is bad",
        check: |rows, order| {
            let l = listed_of(rows).unwrap_or_default();
            if l.iter().any(|row| row.1 == [0; 8]) {
                BAD_TABLE
            } else {
                c_call(rows, order)
            }
        },
    },
    WrongCheck {
        name: "check: the last site makes no arrows",
        check: |rows, order| with_good(rows, order, |rows, order| is_order(&without(rows, 7), order)),
    },
    WrongCheck {
        name: "check: the first site makes no arrows",
        check: |rows, order| with_good(rows, order, |rows, order| is_order(&without(rows, 0), order)),
    },
    WrongCheck {
        name: "check: neighbours only",
        check: |rows, order| {
            with_good(rows, order, |rows, order| {
                is_order(&bare(rows), order) && order.windows(2).all(|p| !arrow(&rows[&p[1]], &rows[&p[0]]))
            })
        },
    },
    WrongCheck {
        name: "check: the tickets are not looked at",
        check: |rows, order| with_good(rows, order, |rows, order| is_order(&bare(rows), order)),
    },
    WrongCheck {
        name: "check: arrows point the other way",
        check: |rows, order| {
            let backward: Vec<u8> = order.chunks(4).rev().flatten().copied().collect();
            if order.len() % 4 == 0 {
                c_call(rows, &backward)
            } else {
                c_call(rows, order)
            }
        },
    },
    WrongCheck {
        name: "check: one may be left out",
        check: |rows, order| {
            with_good(rows, order, |rows, order| {
                let named = rows.iter().filter(|(n, _)| order.contains(n)).map(|(&n, row)| (n, row.clone()));
                is_order(&named.collect(), order)
            })
        },
    },
    WrongCheck {
        name: "check: one may be named twice",
        check: |rows, order| {
            with_good(rows, order, |rows, order| {
                let mut seen = BTreeSet::new();
                let once: Vec<u32> = order.iter().copied().filter(|&n| seen.insert(n)).collect();
                is_order(rows, &once)
            })
        },
    },
    WrongCheck {
        name: "check: strangers may stand in the order",
        check: |rows, order| {
            with_good(rows, order, |rows, order| {
                let known: Vec<u32> = order.iter().copied().filter(|n| rows.contains_key(n)).collect();
                is_order(rows, &known)
            })
        },
    },
    WrongCheck { name: "check: numbers are little-endian", check: |rows, order| c_call(&turned(rows), &turned(order)) },
    WrongCheck {
        name: "check: only the lower three bytes of a ticket count",
        check: |rows, order| {
            with(rows, order, |l| l.iter_mut().for_each(|row| row.1.iter_mut().for_each(|k| *k &= 0xff_ffff)))
        },
    },
    WrongCheck {
        name: "check: tickets are compared with a sign",
        check: |rows, order| {
            with(rows, order, |l| {
                l.iter_mut().for_each(|row| row.1.iter_mut().filter(|k| **k != 0).for_each(|k| *k ^= 1 << 31));
            })
        },
    },
];

/// The answer on a table changed by a mistake.
fn with(rows: &[u8], order: &[u8], change: impl Fn(&mut Listed)) -> u32 {
    let Some(mut listed) = listed_of(rows) else { return BAD_TABLE };
    change(&mut listed);
    let bytes: Vec<u8> = listed
        .iter()
        .flat_map(|(n, tickets)| [&[*n], &tickets[..]].concat())
        .flat_map(|word| word.to_be_bytes())
        .collect();
    c_call(&bytes, order)
}

/// The answer with another rule where the table is good and the order is whole.
fn with_good(rows: &[u8], order: &[u8], good: impl Fn(&Rows, &[u32]) -> bool) -> u32 {
    match (listed_of(rows).as_ref().and_then(good_rows), words_of(order)) {
        (None, _) => BAD_TABLE,
        (Some(rows), Some(order)) if good(&rows, &order) => YES,
        _ => NO,
    }
}

fn numbers_good(listed: &Listed) -> bool {
    let distinct: BTreeSet<u32> = listed.iter().map(|row| row.0).collect();
    listed.len() <= 32 && distinct.len() == listed.len() && !distinct.contains(&0)
}

fn without(rows: &Rows, site: u8) -> Rows {
    let cut = |row: &crate::rows::Tickets| row.iter().filter(|(&s, _)| s != site).map(|(&s, &k)| (s, k)).collect();
    rows.iter().map(|(&n, row)| (n, cut(row))).collect()
}

fn bare(rows: &Rows) -> Rows {
    rows.keys().map(|&n| (n, Default::default())).collect()
}

fn turned(bytes: &[u8]) -> Vec<u8> {
    bytes.chunks(4).flat_map(|word| word.iter().rev()).copied().collect()
}
