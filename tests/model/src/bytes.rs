//! Messages and their bytes (RULES, Messages). A body is read by taking its fields off one by one, so the table of
//! body lengths stands nowhere here: `edges.rs` holds it, to compare with.

pub const VERSION: u8 = 1;
pub const LONGEST_BODY: usize = 160;

#[derive(Clone, Debug, PartialEq, Eq)]
pub enum Message {
    Open { first: u32, floors: Vec<u32> },
    Begin { sites: u8 },
    Ticket { number: u32, site: u8, ticket: u32 },
    Prepared { number: u32, site: u8 },
    Abort { number: u32 },
    Decide { number: u32 },
    Forget { number: u32 },
    Sweep,
    Propose { order: Vec<u32> },
    Order,
}

impl Message {
    /// The transaction the message speaks of; begin, sweep and the like speak of none.
    pub fn number(&self) -> Option<u32> {
        match *self {
            Message::Ticket { number, .. }
            | Message::Prepared { number, .. }
            | Message::Abort { number }
            | Message::Decide { number }
            | Message::Forget { number } => Some(number),
            _ => None,
        }
    }

    pub fn body(&self) -> Vec<u8> {
        let mut out = Vec::new();
        match self {
            Message::Open { first, floors } => {
                out.push(0);
                out.extend(first.to_be_bytes());
                out.extend(floors.iter().flat_map(|f| f.to_be_bytes()));
            }
            Message::Begin { sites } => out.extend([1, *sites]),
            Message::Ticket { number, site, ticket } => {
                out.push(2);
                out.extend(number.to_be_bytes());
                out.push(*site);
                out.extend(ticket.to_be_bytes());
            }
            Message::Prepared { number, site } => {
                out.push(3);
                out.extend(number.to_be_bytes());
                out.push(*site);
            }
            Message::Abort { number } => with_number(&mut out, 4, *number),
            Message::Decide { number } => with_number(&mut out, 5, *number),
            Message::Forget { number } => with_number(&mut out, 6, *number),
            Message::Sweep => out.push(7),
            Message::Propose { order } => {
                out.push(8);
                out.extend(order.iter().flat_map(|n| n.to_be_bytes()));
            }
            Message::Order => out.push(9),
        }
        out
    }

    pub fn bytes(&self) -> Vec<u8> {
        frame_of(&self.body())
    }
}

fn with_number(out: &mut Vec<u8>, kind: u8, number: u32) {
    out.push(kind);
    out.extend(number.to_be_bytes());
}

/// A body behind its version byte and its length. A body too long for its length field loses the upper bits there,
/// which only the hostile streams make use of.
pub fn frame_of(body: &[u8]) -> Vec<u8> {
    let length = body.len() as u16;
    let mut out = vec![VERSION];
    out.extend(length.to_be_bytes());
    out.extend(body);
    out
}

/// What stands at the front of a stream.
#[derive(Clone, Copy, Debug, PartialEq, Eq)]
pub enum Frame {
    /// Too few bytes to tell; at the end of input this is a message cut off, or nothing at all.
    More,
    /// A version other than 1 or a length over 160: reading ends.
    Broken,
    /// A whole message with a body of so many bytes, from byte 3 on.
    Body(usize),
}

pub fn frame(stream: &[u8]) -> Frame {
    match stream {
        [] => Frame::More,
        [version, ..] if *version != VERSION => Frame::Broken,
        [_, high, low, rest @ ..] => {
            let length = usize::from(*high) * 256 + usize::from(*low);
            if length > LONGEST_BODY {
                Frame::Broken
            } else if rest.len() < length {
                Frame::More
            } else {
                Frame::Body(length)
            }
        }
        _ => Frame::More,
    }
}

/// The message a body stands for, or none: the body is empty, or its kind unknown, or its length wrong for the kind.
pub fn read_body(body: &[u8]) -> Option<Message> {
    let mut fields = Fields(body);
    let message = match fields.byte()? {
        0 => Message::Open { first: fields.word()?, floors: fields.words()? },
        1 => Message::Begin { sites: fields.byte()? },
        2 => Message::Ticket { number: fields.word()?, site: fields.byte()?, ticket: fields.word()? },
        3 => Message::Prepared { number: fields.word()?, site: fields.byte()? },
        4 => Message::Abort { number: fields.word()? },
        5 => Message::Decide { number: fields.word()? },
        6 => Message::Forget { number: fields.word()? },
        7 => Message::Sweep,
        8 => Message::Propose { order: fields.words()? },
        9 => Message::Order,
        _ => return None,
    };
    fields.0.is_empty().then_some(message)
}

/// The part of a body that is not read yet.
struct Fields<'a>(&'a [u8]);

impl Fields<'_> {
    fn byte(&mut self) -> Option<u8> {
        let (&first, rest) = self.0.split_first()?;
        self.0 = rest;
        Some(first)
    }

    fn word(&mut self) -> Option<u32> {
        let mut value = 0;
        for _ in 0..4 {
            value = value << 8 | u32::from(self.byte()?);
        }
        Some(value)
    }

    /// All that is left, as words; none if some bytes remain over.
    fn words(&mut self) -> Option<Vec<u32>> {
        let mut out = Vec::new();
        while !self.0.is_empty() {
            out.push(self.word()?);
        }
        Some(out)
    }
}
