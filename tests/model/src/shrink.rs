//! Shortens a failing stream: runs of messages are left out as long as it still fails (delta debugging), and so are
//! whole transactions. Leaving out a lone begin would shift the numbers that all later messages name, so a transaction
//! goes together with everything said of it, and later numbers move down by one.

use crate::bytes::{frame, read_body, Frame, Message};
use crate::desk::Desk;
use crate::line::Line;
use crate::rules::RIGHT_RULES;
use crate::streams::Stream;

/// The shortest stream found that still fails; `tries` bounds how often `fails` is asked.
pub fn shorten(stream: &Stream, mut tries: usize, fails: impl Fn(&Stream) -> bool) -> Stream {
    let mut stream = stream.clone();
    let mut keep_if_failing = |shorter: Stream, stream: &mut Stream| {
        let better = tries > 0 && fails(&shorter);
        tries = tries.saturating_sub(1);
        if better {
            *stream = shorter;
        }
        better
    };
    loop {
        let before = stream.len();
        leave_out_transactions(&mut stream, &mut keep_if_failing);
        leave_out_runs(&mut stream, &mut keep_if_failing);
        if stream.len() == before {
            return stream;
        }
    }
}

fn leave_out_runs(stream: &mut Stream, keep_if_failing: &mut impl FnMut(Stream, &mut Stream) -> bool) {
    let mut run = stream.len().div_ceil(2);
    while run > 0 {
        let mut at = 0;
        while at < stream.len() {
            let end = stream.len().min(at + run);
            let without = [&stream[..at], &stream[end..]].concat();
            if !keep_if_failing(without, stream) {
                at = end;
            }
        }
        run = if run > 1 { run.div_ceil(2) } else { 0 };
    }
}

fn leave_out_transactions(stream: &mut Stream, keep_if_failing: &mut impl FnMut(Stream, &mut Stream) -> bool) {
    let mut at = stream.len();
    // From the last one on, since that moves the fewest numbers.
    while at > 0 {
        at -= 1;
        if let Some(number) = begun_at(stream, at) {
            let without = without_transaction(stream, at, number);
            keep_if_failing(without, stream);
            at = at.min(stream.len());
        }
    }
}

/// The number that the begin at this place is given, if one stands there and is taken.
fn begun_at(stream: &Stream, at: usize) -> Option<u32> {
    message_of(&stream[at]).filter(|message| matches!(message, Message::Begin { .. }))?;
    let mut desk = Desk::new(&RIGHT_RULES);
    desk.feed(&stream[..at].concat());
    match desk.feed(&stream[at]).last() {
        Some((_, Line::Begin(number))) => Some(*number),
        _ => None,
    }
}

fn without_transaction(stream: &Stream, at: usize, number: u32) -> Stream {
    let later = stream[at + 1..].iter().filter_map(|piece| match message_of(piece) {
        None => Some(piece.clone()),
        Some(message) if message.number() == Some(number) => None,
        Some(message) => Some(renumbered(message, number).bytes()),
    });
    stream[..at].iter().cloned().chain(later).collect()
}

/// The message as it is when this number was never given: proposals do not name it, and later numbers are one less.
fn renumbered(message: Message, gone: u32) -> Message {
    let moved = |n: u32| if n > gone { n - 1 } else { n };
    match message {
        Message::Ticket { number, site, ticket } => Message::Ticket { number: moved(number), site, ticket },
        Message::Prepared { number, site } => Message::Prepared { number: moved(number), site },
        Message::Abort { number } => Message::Abort { number: moved(number) },
        Message::Decide { number } => Message::Decide { number: moved(number) },
        Message::Forget { number } => Message::Forget { number: moved(number) },
        Message::Propose { order } => {
            Message::Propose { order: order.into_iter().filter(|&n| n != gone).map(moved).collect() }
        }
        message => message,
    }
}

/// The message that a piece of a stream is, if it is just one.
fn message_of(piece: &[u8]) -> Option<Message> {
    match frame(piece) {
        Frame::Body(length) if piece.len() == 3 + length => read_body(&piece[3..]),
        _ => None,
    }
}
