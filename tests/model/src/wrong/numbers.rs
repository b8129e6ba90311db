//! Mistakes with numbers, slots and openings (RULES, The table and Limits).

use super::{after_begin, broken, listed, Wrong};
use crate::bytes::Message;
use crate::calls;
use crate::rules::{Rules, RIGHT};

pub static WRONG: &[Wrong] = &[
    broken(
        "a refused begin uses a number up",
        Rules {
            refused: |t, m, _| {
                if matches!(m, Message::Begin { .. }) && !t.is_closed() {
                    t.last = t.last.saturating_add(1);
                }
            },
            ..RIGHT
        },
    ),
    broken(
        "an aborted one's number is given again",
        Rules {
            effect: |r, t, m| {
                let line = calls::effect(r, t, m);
                if let Message::Abort { number } = m {
                    t.last -= u32::from(*number == t.last && t.last > 0);
                }
                line
            },
            ..RIGHT
        },
    ),
    broken(
        "the first begin gets the number after the first",
        Rules {
            effect: |r, t, m| {
                let line = calls::effect(r, t, m);
                if let Message::Open { first, .. } = m {
                    t.last = *first;
                }
                line
            },
            ..RIGHT
        },
    ),
    broken("numbers wrap around", Rules { condition: |k, t, m| k != 8 && calls::condition(k, t, m), ..RIGHT }),
    broken(
        "the last number is never given",
        Rules { condition: |k, t, m| calls::condition(k, t, m) || k == 8 && t.last == u32::MAX - 1, ..RIGHT },
    ),
    broken(
        "there are 31 slots",
        Rules { condition: |k, t, m| calls::condition(k, t, m) || k == 7 && t.all.len() == 31, ..RIGHT },
    ),
    broken(
        "there are 33 slots",
        Rules { condition: |k, t, m| if k == 7 { t.all.len() > 32 } else { calls::condition(k, t, m) }, ..RIGHT },
    ),
    broken(
        "committed ones take no slot",
        Rules {
            condition: |k, t, m| if k == 7 { t.active().count() > 31 } else { calls::condition(k, t, m) },
            ..RIGHT
        },
    ),
    listed(
        "a begin takes the highest free slot",
        Rules {
            effect: |r, t, m| {
                after_begin(r, t, m, |b, others| {
                    b.place = (0..32).rev().find(|p| !others.contains(p)).unwrap_or(b.place)
                })
            },
            ..RIGHT
        },
    ),
    listed(
        "a begin takes the slot behind the last one taken",
        Rules {
            effect: |r, t, m| {
                after_begin(r, t, m, |b, others| {
                    let behind = others.iter().max().map_or(0, |p| (p + 1) % 32);
                    b.place = (0..32).map(|step| (behind + step) % 32).find(|p| !others.contains(p)).unwrap_or(b.place);
                })
            },
            ..RIGHT
        },
    ),
    broken(
        "opening with number 0 is fine",
        Rules {
            condition: |k, t, m| match (k, m) {
                (1, Message::Open { floors, .. }) => floors.is_empty() || floors.len() > 8,
                _ => calls::condition(k, t, m),
            },
            ..RIGHT
        },
    ),
    broken(
        "opening without floors is fine",
        Rules {
            condition: |k, t, m| match (k, m) {
                (1, Message::Open { first, floors }) => *first == 0 || floors.len() > 8,
                _ => calls::condition(k, t, m),
            },
            ..RIGHT
        },
    ),
    broken(
        "nine floors are fine",
        Rules {
            condition: |k, t, m| match (k, m) {
                (1, Message::Open { first, floors }) => *first == 0 || floors.is_empty() || floors.len() > 9,
                _ => calls::condition(k, t, m),
            },
            ..RIGHT
        },
    ),
    broken(
        "a second opening begins anew",
        Rules {
            condition: |k, t, m| !(k == 4 && matches!(m, Message::Open { .. })) && calls::condition(k, t, m),
            ..RIGHT
        },
    ),
];
