use super::Maker;
use crate::bytes::Message;
use crate::line::Line;

/// Begin, two tickets, two prepared, decide, sweep, over and over at two sites.
pub fn fill(m: &mut Maker, length: usize) {
    if m.table().is_closed() {
        m.say(Message::Open { first: 1, floors: vec![0, 0] });
    }
    let end = m.made + length;
    while m.made < end {
        let Line::Begin(number) = m.say(Message::Begin { sites: 3 }) else { return };
        let top: Vec<u32> = m.table().highest.clone();
        for site in 0..2_u8 {
            m.say(Message::Ticket { number, site, ticket: top[usize::from(site)].saturating_add(1) });
        }
        for site in 0..2 {
            m.say(Message::Prepared { number, site });
        }
        m.say(Message::Decide { number });
        m.say(Message::Sweep);
    }
}
