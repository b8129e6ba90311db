//! Every length, version and cut of a message.

use super::{refused, Draft, Edge};
use crate::bytes::{frame_of, Message};

/// The table of body lengths, as it stands in RULES.
fn fits(kind: u8, length: usize) -> bool {
    match kind {
        0 => length >= 5 && (length - 5) % 4 == 0,
        1 => length == 2,
        2 => length == 10,
        3 => length == 6,
        4..=6 => length == 5,
        7 | 9 => length == 1,
        8 => length >= 1 && (length - 1) % 4 == 0,
        _ => false,
    }
}

/// Every length from 0 to 161 for one kind, the fields all 0, before or after a good opening.
pub fn lengths(kind: u8, opened: bool) -> Edge {
    let label = format!("body lengths 0 to 161 of kind {kind}, {}", if opened { "opened" } else { "not opened" });
    let mut draft = if opened { Draft::opened(label, 2) } else { Draft::new(label) };
    for length in 0..=160 {
        let mut body = vec![0; length];
        if let Some(first) = body.first_mut() {
            *first = kind;
        }
        let line = match kind {
            _ if length == 0 || !fits(kind, length) => refused(10),
            _ if !opened => refused(1),
            0 => refused(4),
            1 => refused(3),
            2..=6 => refused(2),
            7 => "swept 0".to_string(),
            8 if length == 1 => "good".to_string(),
            8 => "bad".to_string(),
            _ => "order".to_string(),
        };
        draft.raw(frame_of(&body), line);
    }
    draft.raw(frame_of(&[kind; 161]), refused(11));
    draft.unanswered(Message::Sweep.bytes());
    draft.done()
}

pub fn version(version: u8) -> Edge {
    let mut draft = Draft::opened(format!("version {version}"), 1);
    let mut bytes = Message::Order.bytes();
    bytes[0] = version;
    if version == 1 {
        draft.raw(bytes, "order");
        draft.say(Message::Sweep, "swept 0");
    } else {
        draft.raw(bytes, refused(11));
        draft.unanswered(Message::Sweep.bytes());
    }
    draft.done()
}

/// A length over 160 ends the reading, whether the body comes or not.
pub fn too_long(length: usize) -> Edge {
    let mut draft = Draft::opened(format!("a body of {length} bytes"), 1);
    draft.raw(frame_of(&vec![7; length]), refused(11));
    draft.done()
}

/// Each message cut behind each of its bytes.
pub fn cuts() -> Vec<Edge> {
    let messages = [
        (Message::Open { first: 1, floors: vec![0] }, refused(4)),
        (Message::Begin { sites: 1 }, "begin 1".to_string()),
        (Message::Ticket { number: 1, site: 0, ticket: 1 }, refused(2)),
        (Message::Prepared { number: 1, site: 0 }, refused(2)),
        (Message::Abort { number: 1 }, refused(2)),
        (Message::Decide { number: 1 }, refused(2)),
        (Message::Forget { number: 1 }, refused(2)),
        (Message::Sweep, "swept 0".to_string()),
        (Message::Propose { order: vec![1, 2] }, "bad".to_string()),
        (Message::Order, "order".to_string()),
    ];
    let mut out = Vec::new();
    for (message, line) in messages {
        let bytes = message.bytes();
        for keep in 0..=bytes.len() {
            let mut draft = Draft::opened(format!("{message:?} cut after {keep} bytes"), 1);
            match keep {
                0 => (),
                _ if keep == bytes.len() => draft.raw(bytes.clone(), line.clone()),
                _ => draft.raw(bytes[..keep].to_vec(), refused(11)),
            }
            out.push(draft.done());
        }
    }
    out
}

/// The shortest message, whose answer is longer than itself, more often than fits into one read.
pub fn empty_bodies() -> Edge {
    let mut draft = Draft::new("30,000 empty bodies");
    for _ in 0..30_000 {
        draft.raw(frame_of(&[]), refused(10));
    }
    draft.done()
}
