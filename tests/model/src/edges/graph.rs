//! Rings and ladders of arrows, and proposals of every length.

use super::{refused, Draft, Edge};
use crate::bytes::Message;

/// Proposals of 0 to 39 numbers over so many kept rows, whose only order is by number.
pub fn proposals(kept: u32) -> Edge {
    let mut draft = Draft::opened(format!("proposals of 0 to 39 numbers over {kept} rows"), 1);
    for number in 1..=kept {
        draft.say(Message::Begin { sites: 1 }, format!("begin {number}"));
        draft.prepare(number, &[(0, number)]);
        draft.say(Message::Decide { number }, format!("commit {number}"));
    }
    for count in 0..=39 {
        draft.say(Message::Propose { order: (1..=count).collect() }, if count == kept { "good" } else { "bad" });
        let backward = if count == kept && kept < 2 { "good" } else { "bad" };
        draft.say(Message::Propose { order: (1..=count).rev().collect() }, backward);
    }
    draft.done()
}

/// The longest line there can be, so often in one piece that no small buffer holds all the answers.
pub fn longest_lines() -> Edge {
    let first = u32::MAX - 31;
    let mut draft = Draft::new("2000 orders of 32 long numbers");
    draft.say(Message::Open { first, floors: vec![0] }, "ok");
    for number in first..=u32::MAX {
        draft.say(Message::Begin { sites: 1 }, format!("begin {number}"));
    }
    for number in first..=u32::MAX {
        draft.prepare(number, &[(0, u32::MAX - number + 1)]);
        draft.say(Message::Decide { number }, format!("commit {number}"));
    }
    let order: String = (first..=u32::MAX).rev().map(|n| format!(" {n}")).collect();
    for _ in 0..2000 {
        draft.say(Message::Order, format!("order{order}"));
    }
    draft.done()
}

/// A ring of transactions, each sharing one site with the next; the one decided last closes the cycle, unless one
/// site is the other way round.
pub fn ring(length: u32, last: u32, closed: bool) -> Edge {
    let shape = if closed { "a ring" } else { "all but a ring" };
    let mut draft = Draft::opened(format!("{shape} of {length}, closed by {}", last + 1), length as usize);
    let (site, next) = (|at: u32| at as u8, |at: u32| ((at + 1) % length) as u8);
    for at in 0..length {
        draft.say(Message::Begin { sites: 1 << site(at) | 1 << next(at) }, format!("begin {}", at + 1));
    }
    // Site i is shared by transaction i and the one before it, who takes ticket 1 there, and 2 at the turned site.
    let turned = (!closed).then_some(site(last));
    for at in 0..length {
        let behind = |s: u8| if turned == Some(s) { 1 } else { 2 };
        draft.prepare(at + 1, &[(site(at), behind(site(at))), (next(at), 3 - behind(next(at)))]);
    }
    for step in 1..=length {
        let number = (last + step) % length + 1;
        let line = if closed && step == length { "cycle" } else { "commit" };
        draft.say(Message::Decide { number }, format!("{line} {number}"));
    }
    draft.say(Message::Sweep, format!("swept {}", if closed { length - 1 } else { length }));
    draft.done()
}

/// A string of rows, each with an arrow to the next: held back at its head it stays whole, set free it goes whole,
/// and one by one only from its head.
pub fn ladder(rows: u32) -> Edge {
    let mut draft = Draft::opened(format!("a ladder of {rows} rows"), 8);
    let site = |row: u32| (row % 8) as u8;
    for row in 0..rows {
        draft.say(Message::Begin { sites: 1 << site(row) | 1 << site(row + 1) }, format!("begin {}", row + 1));
    }
    // Decided from the foot upward. The head is decided only once the one that holds it back has begun.
    for row in (0..rows).rev() {
        if row == 0 {
            draft.say(Message::Begin { sites: 1 }, format!("begin {}", rows + 1));
        }
        draft.prepare(row + 1, &[(site(row), 2 * row + 2), (site(row + 1), 2 * row + 3)]);
        draft.say(Message::Decide { number: row + 1 }, format!("commit {}", row + 1));
    }
    draft.say(Message::Sweep, "swept 0");
    for row in 0..rows {
        draft.say(Message::Forget { number: row + 1 }, refused(9));
    }
    draft.say(Message::Abort { number: rows + 1 }, "ok");
    for row in 1..rows {
        draft.say(Message::Forget { number: row + 1 }, refused(9));
    }
    draft.say(Message::Forget { number: 1 }, "ok");
    draft.say(Message::Sweep, format!("swept {}", rows - 1));
    draft.done()
}
