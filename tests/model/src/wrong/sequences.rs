//! Two checks of a call in the wrong sequence (RULES, Calls).

use super::{broken, visible, Wrong};
use crate::bytes::Message;
use crate::calls;
use crate::line::Line;
use crate::rules::{Rules, RIGHT};
use crate::table::Table;

pub static WRONG: &[Wrong] = &[
    broken(
        "open tests 1 before 4",
        Rules { sequence: |m| if let Message::Open { .. } = m { &[1, 4] } else { calls::sequence(m) }, ..RIGHT },
    ),
    visible(
        "begin tests 8 before 3",
        Rules { sequence: |m| if let Message::Begin { .. } = m { &[1, 8, 3, 7] } else { calls::sequence(m) }, ..RIGHT },
    ),
    broken(
        "begin tests 7 before 8",
        Rules { sequence: |m| if let Message::Begin { .. } = m { &[1, 3, 7, 8] } else { calls::sequence(m) }, ..RIGHT },
    ),
    visible(
        "begin tests 7 before 3",
        Rules { sequence: |m| if let Message::Begin { .. } = m { &[1, 7, 3, 8] } else { calls::sequence(m) }, ..RIGHT },
    ),
    broken("ticket tests 3 before 2", Rules { sequence: |m| ticket(m, &[1, 3, 2, 4, 5, 6]), ..RIGHT }),
    visible("ticket tests 5 before 4", Rules { sequence: |m| ticket(m, &[1, 2, 3, 5, 4, 6]), ..RIGHT }),
    visible("ticket tests 6 before 4", Rules { sequence: |m| ticket(m, &[1, 2, 3, 6, 4, 5]), ..RIGHT }),
    broken("ticket tests 6 before 5", Rules { sequence: |m| ticket(m, &[1, 2, 3, 4, 6, 5]), ..RIGHT }),
    broken(
        "ticket of a committed one is 4 before 3",
        Rules { sequence: |m| ticket(m, &[1, 2, 4, 3, 5, 6]), condition: committed_is_4, ..RIGHT },
    ),
    broken("prepared tests 3 before 2", Rules { sequence: |m| prepared(m, &[1, 3, 2, 4]), ..RIGHT }),
    broken(
        "prepared of a committed one is 4 before 3",
        Rules { sequence: |m| prepared(m, &[1, 2, 4, 3]), condition: committed_is_4, ..RIGHT },
    ),
    visible(
        "a message is tested for 1 before 10",
        Rules { unread: |t| Line::Refused(if t.is_closed() { 1 } else { 10 }), ..RIGHT },
    ),
    visible(
        "sweep, order and propose need no opening",
        Rules {
            sequence: |m| match m {
                Message::Sweep | Message::Order | Message::Propose { .. } => &[],
                _ => calls::sequence(m),
            },
            ..RIGHT
        },
    ),
    broken(
        "an unknown number is 2 before any opening",
        Rules {
            sequence: |m| match m {
                Message::Abort { .. } | Message::Decide { .. } => &[2, 1, 4],
                _ => calls::sequence(m),
            },
            ..RIGHT
        },
    ),
];

fn ticket(message: &Message, sequence: &'static [u8]) -> &'static [u8] {
    match message {
        Message::Ticket { .. } => sequence,
        _ => calls::sequence(message),
    }
}

fn prepared(message: &Message, sequence: &'static [u8]) -> &'static [u8] {
    match message {
        Message::Prepared { .. } => sequence,
        _ => calls::sequence(message),
    }
}

/// A report for a committed transaction counts as a wrong stage whatever its site.
fn committed_is_4(refusal: u8, table: &Table, message: &Message) -> bool {
    let reported = match message {
        Message::Ticket { number, .. } | Message::Prepared { number, .. } => table.all.get(number),
        _ => None,
    };
    refusal == 4 && reported.is_some_and(|t| t.committed.is_some()) || calls::condition(refusal, table, message)
}
