use super::Maker;
use crate::bytes::Message;

pub fn fill(m: &mut Maker, length: usize) {
    if m.table().is_closed() {
        let sites = 1 + m.random.below(8);
        m.open(sites);
    }
    let end = m.made + length;
    while m.made < end {
        let message = step(m);
        m.say(message);
    }
}

pub fn step(m: &mut Maker) -> Message {
    let (active, kept) = (m.active(), m.kept());
    match m.random.below(100) {
        // A full table is worth some begins too, but not most of the stream.
        0..=13 if active.len() + kept.len() < 32 || m.random.chance(10) => Message::Begin { sites: m.site_list() },
        0..=69 => match m.random.pick(&active) {
            Some(number) => m.next_step(number),
            None => Message::Begin { sites: m.site_list() },
        },
        70..=72 => Message::Abort { number: m.random.pick(&active).unwrap_or(1) },
        73..=78 => Message::Forget { number: m.random.pick(&kept).unwrap_or(1) },
        79..=80 => Message::Sweep,
        81..=84 => Message::Order,
        85..=90 => Message::Propose { order: m.proposal() },
        _ => anything(m),
    }
}

/// A message without regard to what the table holds.
pub fn anything(m: &mut Maker) -> Message {
    let known: Vec<u32> = m.table().all.keys().copied().collect();
    let last = m.table().last;
    let number = match m.random.below(8) {
        0 => 0,
        1 => last.wrapping_add(1),
        2 => last.wrapping_sub(m.random.below(40) as u32),
        3 => m.random.word(),
        _ => m.random.pick(&known).unwrap_or(1),
    };
    let site = match m.random.below(6) {
        0 => m.random.byte(),
        1 => m.table().highest.len() as u8,
        _ => m.random.below(m.table().highest.len()) as u8,
    };
    match m.random.below(11) {
        0 => {
            let floors = (0..m.random.below(11)).map(|_| m.random.below(3) as u32).collect();
            Message::Open { first: m.random.below(3) as u32, floors }
        }
        1 => Message::Begin { sites: m.random.byte() },
        2 => Message::Begin { sites: 0 },
        3 => Message::Ticket { number, site, ticket: m.ticket(number, site) },
        4 => Message::Ticket { number, site, ticket: m.random.word() },
        5 | 6 => Message::Prepared { number, site },
        7 => Message::Abort { number },
        8 => Message::Decide { number },
        9 => Message::Forget { number },
        _ => {
            let count = m.random.below(40);
            Message::Propose { order: (0..count).map(|_| m.random.below(40) as u32).collect() }
        }
    }
}
