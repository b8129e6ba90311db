//! Bytes from someone who means harm, or whose program is broken: bodies of the wrong length, unknown kinds, lengths
//! that lie, other versions, junk, cuts, messages before any opening, openings that are refused, second openings.

use super::{mixed, Maker};
use crate::bytes::{frame_of, Message, LONGEST_BODY};

pub fn fill(m: &mut Maker, length: usize) {
    if m.random.chance(8) {
        return noise(m);
    }
    if m.random.chance(50) {
        before_opening(m);
    }
    let sites = 1 + m.random.below(8);
    m.open(sites);
    for _ in 0..length {
        let message = mixed::step(m);
        match m.random.below(100) {
            0..=84 => drop(m.say(message)),
            85..=98 => spoil(m, &message),
            // Mostly the end of the stream, so it must be rare.
            _ => lie(m, &message),
        }
    }
    if m.random.chance(65) {
        end(m);
    }
}

fn before_opening(m: &mut Maker) {
    for _ in 0..m.random.below(9) {
        let message = match m.random.below(12) {
            0 => Message::Open { first: 0, floors: vec![0] },
            1 => Message::Open { first: 1, floors: Vec::new() },
            2 => Message::Open { first: m.random.word(), floors: vec![7; 9 + m.random.below(30)] },
            3 => Message::Sweep,
            4 => Message::Order,
            5 => Message::Propose { order: Vec::new() },
            _ => mixed::anything(m),
        };
        match m.random.below(5) {
            0 => spoil(m, &message),
            _ => drop(m.say(message)),
        }
    }
}

/// A body that no message has, well framed: reading goes on behind it. Some turn out to be messages after all.
fn spoil(m: &mut Maker, message: &Message) {
    let mut body = message.body();
    match m.random.below(8) {
        0 => body.clear(),
        1 => drop(body.pop()),
        2 => body.push(m.random.byte()),
        3 => body.extend([0; 4]),
        4 => body[0] = m.random.byte(),
        5 => body[0] = m.random.below(12) as u8,
        6 => {
            let at = m.random.below(body.len());
            body[at] ^= 1 << m.random.below(8);
        }
        _ => body = (0..m.random.below(LONGEST_BODY + 1)).map(|_| m.random.byte()).collect(),
    }
    body.truncate(LONGEST_BODY);
    m.raw(frame_of(&body));
}

/// A header that does not fit what follows.
fn lie(m: &mut Maker, message: &Message) {
    let mut bytes = message.bytes();
    match m.random.below(4) {
        0 => bytes[0] = m.random.byte(),
        1 => bytes[1] = m.random.byte(),
        2 => bytes[2] = m.random.byte(),
        _ => bytes[2] = bytes[2].wrapping_add(1),
    }
    m.raw(bytes);
}

/// An end that is answered 11, sometimes with messages behind it that nobody may read.
fn end(m: &mut Maker) {
    let message = mixed::step(m);
    let mut bytes = message.bytes();
    match m.random.below(5) {
        0 => bytes[0] = if m.random.chance(50) { 0 } else { 2 + m.random.below(254) as u8 },
        1 => {
            let over = if m.random.chance(40) { 1 } else { 1 + m.random.below(120) };
            bytes = frame_of(&vec![7; LONGEST_BODY + over]);
        }
        2 => bytes = [&[1, 1 + m.random.below(255) as u8][..], &message.bytes()[2..]].concat(),
        _ => {
            let keep = 1 + m.random.below(bytes.len() - 1);
            bytes.truncate(keep);
            m.raw(bytes);
            return;
        }
    }
    m.raw(bytes);
    for _ in 0..m.random.below(3) {
        m.raw(Message::Order.bytes());
    }
}

/// Nothing but junk, some of it with a header that might pass.
fn noise(m: &mut Maker) {
    for _ in 0..1 + m.random.below(12) {
        let junk: Vec<u8> = (0..m.random.below(40)).map(|_| m.random.byte()).collect();
        match m.random.below(10) {
            0 => m.raw(junk),
            1..=4 => m.raw(frame_of(&junk)),
            _ => {
                let kind = m.random.below(11) as u8;
                m.raw(frame_of(&[&[kind], &junk[..]].concat()));
            }
        }
    }
}
