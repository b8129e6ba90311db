//! Sites, floors, numbers, tickets and slots at both ends of their ranges.

use super::{refused, Draft, Edge};
use crate::bytes::Message;

const MAX: u32 = u32::MAX;

/// All 256 site lists on a table with so many sites.
pub fn site_lists(sites: usize) -> Edge {
    let mut draft = Draft::opened(format!("all site lists over {sites} sites"), sites);
    let mut number = 0;
    for list in 0..=255_u8 {
        let message = Message::Begin { sites: list };
        if list == 0 || u16::from(list) >= 1 << sites {
            draft.say(message, refused(3));
        } else {
            number += 1;
            draft.say(message, format!("begin {number}"));
            draft.say(Message::Abort { number }, "ok");
        }
    }
    draft.done()
}

/// Reports for all 256 sites of a transaction that uses every second one.
pub fn reports_by_site(sites: usize) -> Edge {
    let mut draft = Draft::opened(format!("reports for sites 0 to 255 over {sites} sites"), sites);
    let list = 0b0101_0101 & ((1_u16 << sites) - 1) as u8;
    draft.say(Message::Begin { sites: list }, "begin 1");
    for site in 0..=255_u8 {
        let listed = usize::from(site) < sites && site % 2 == 0;
        draft.say(Message::Prepared { number: 1, site }, refused(if listed { 4 } else { 3 }));
        draft.say(Message::Ticket { number: 1, site, ticket: 9 }, if listed { "ok".into() } else { refused(3) });
        draft.say(Message::Ticket { number: 1, site, ticket: 9 }, refused(if listed { 4 } else { 3 }));
        draft.say(Message::Prepared { number: 1, site }, if listed { "ok".into() } else { refused(3) });
        draft.say(Message::Prepared { number: 1, site }, refused(if listed { 4 } else { 3 }));
    }
    draft.say(Message::Decide { number: 1 }, "commit 1");
    draft.done()
}

pub fn floors(count: usize) -> Edge {
    let mut draft = Draft::new(format!("{count} floors"));
    let good = (1..=8).contains(&count);
    draft.say(Message::Open { first: 0, floors: vec![0; count] }, refused(1));
    draft.say(Message::Open { first: 1, floors: vec![0; count] }, if good { "ok".into() } else { refused(1) });
    draft.say(Message::Sweep, if good { "swept 0".into() } else { refused(1) });
    draft.say(Message::Open { first: 0, floors: Vec::new() }, refused(if good { 4 } else { 1 }));
    draft.done()
}

/// Numbers from the first on, until none is left.
pub fn numbers(first: u32) -> Edge {
    let mut draft = Draft::new(format!("first number {first}"));
    draft.say(Message::Open { first, floors: vec![0] }, "ok");
    for step in 0..4 {
        let line = |number: Option<u32>| number.map_or(refused(8), |n| format!("begin {n}"));
        draft.say(Message::Begin { sites: 2 }, refused(3));
        draft.say(Message::Begin { sites: 1 }, line(first.checked_add(step)));
    }
    draft.say(Message::Abort { number: first }, "ok");
    draft.say(Message::Abort { number: first.wrapping_sub(1) }, refused(2));
    draft.done()
}

/// Numbers used up and a full table at once: 3 comes first, then 8, and 7 only while numbers last.
pub fn numbers_and_slots() -> Edge {
    let first = MAX - 32;
    let mut draft = Draft::new("the last number in a full table");
    draft.say(Message::Open { first, floors: vec![0] }, "ok");
    for step in 0..32 {
        draft.say(Message::Begin { sites: 1 }, format!("begin {}", first + step));
    }
    draft.say(Message::Begin { sites: 1 }, refused(7));
    draft.say(Message::Begin { sites: 0 }, refused(3));
    draft.say(Message::Abort { number: first }, "ok");
    draft.say(Message::Begin { sites: 1 }, format!("begin {MAX}"));
    draft.say(Message::Begin { sites: 1 }, refused(8));
    draft.say(Message::Begin { sites: 0 }, refused(3));
    draft.say(Message::Abort { number: MAX }, "ok");
    draft.say(Message::Begin { sites: 1 }, refused(8));
    draft.done()
}

pub fn tickets_over(floor: u32) -> Edge {
    let mut draft = Draft::new(format!("tickets over floor {floor}"));
    draft.say(Message::Open { first: 1, floors: vec![floor, 0] }, "ok");
    let tickets = [0, 1, floor.saturating_sub(1), floor, floor.saturating_add(1), MAX - 1, MAX];
    for (number, ticket) in (1..).zip(tickets) {
        draft.say(Message::Begin { sites: 3 }, format!("begin {number}"));
        let line = if ticket <= floor { refused(5) } else { "ok".into() };
        draft.say(Message::Ticket { number, site: 0, ticket }, line);
        let line = if ticket == 0 { refused(5) } else { "ok".into() };
        draft.say(Message::Ticket { number, site: 1, ticket }, line);
        draft.say(Message::Abort { number }, "ok");
    }
    draft.done()
}

/// 32 slots with so many of them committed: 31 leave room, 32 do not, committed or active.
pub fn slots(committed: u32) -> Edge {
    let mut draft = Draft::opened(format!("{committed} of 32 committed"), 1);
    for number in 1..=32 {
        draft.say(Message::Begin { sites: 1 }, format!("begin {number}"));
    }
    draft.say(Message::Begin { sites: 1 }, refused(7));
    for number in 1..=committed {
        draft.prepare(number, &[(0, number)]);
        draft.say(Message::Decide { number }, format!("commit {number}"));
    }
    draft.say(Message::Begin { sites: 1 }, refused(7));
    // With all committed nothing is held back; otherwise the active ones, begun before, hold back everything.
    if committed == 32 {
        draft.say(Message::Sweep, "swept 32");
        for number in 33..=64 {
            draft.say(Message::Begin { sites: 1 }, format!("begin {number}"));
        }
    } else {
        draft.say(Message::Sweep, "swept 0");
        draft.say(Message::Abort { number: 32 }, "ok");
        draft.say(Message::Begin { sites: 1 }, "begin 33");
    }
    draft.say(Message::Begin { sites: 1 }, refused(7));
    draft.done()
}
