use super::{mixed, Maker};
use crate::bytes::Message;

pub fn fill(m: &mut Maker, length: usize) {
    let sites = 1 + m.random.below(2);
    if m.random.chance(95) {
        let floors = (0..sites).map(|_| m.random.below(4).saturating_sub(2) as u32).collect();
        m.say(Message::Open { first: 1, floors });
    }
    for _ in 0..length {
        let message = step(m);
        m.say(message);
    }
}

/// Few numbers and few tickets, so that every small clash comes up again and again.
fn step(m: &mut Maker) -> Message {
    let active = m.active();
    let number = m.random.pick(&active);
    match (m.random.below(20), number) {
        (0..=2, _) => Message::Begin { sites: 1 + m.random.below(3) as u8 },
        (3..=13, Some(number)) => match m.next_step(number) {
            Message::Ticket { number, site, .. } => Message::Ticket { number, site, ticket: m.random.below(5) as u32 },
            message => message,
        },
        (14, _) => Message::Sweep,
        (15, _) => Message::Order,
        (16, _) => Message::Propose { order: m.proposal() },
        (17, _) => Message::Forget { number: 1 + m.random.below(4) as u32 },
        (18, _) => mixed::anything(m),
        _ => Message::Begin { sites: 1 + m.random.below(3) as u8 },
    }
}
