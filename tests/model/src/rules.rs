//! The rules as a record of functions, so that a wrong model is the right one with one of them exchanged.

use crate::bytes::{self, Frame, Message};
use crate::calls;
use crate::line::Line;
use crate::table::Table;

pub struct Rules {
    /// What stands at the front of the stream.
    pub frame: fn(&[u8]) -> Frame,
    /// The message of a body, or none for refusal 10.
    pub read: fn(&[u8]) -> Option<Message>,
    /// The answer to a body that is no message.
    pub unread: fn(&Table) -> Line,
    /// Whether reading goes on behind such a body.
    pub goes_on: bool,
    /// What is answered to bytes left over at the end of input.
    pub cut: fn(&[u8]) -> Option<Line>,
    pub sequence: fn(&Message) -> &'static [u8],
    pub condition: fn(u8, &Table, &Message) -> bool,
    /// What a refused call changes: nothing.
    pub refused: fn(&mut Table, &Message, u8),
    pub makes_cycle: fn(&Table, u32) -> bool,
    pub effect: fn(&Rules, &mut Table, &Message) -> Line,
    pub show: fn(&Line) -> String,
}

pub const RIGHT: Rules = Rules {
    frame: bytes::frame,
    read: bytes::read_body,
    unread: |_| Line::Refused(10),
    goes_on: true,
    cut: |left| (!left.is_empty()).then_some(Line::Refused(11)),
    sequence: calls::sequence,
    condition: calls::condition,
    refused: |_, _, _| (),
    makes_cycle: calls::makes_cycle,
    effect: calls::effect,
    show: |line| line.to_string(),
};

pub static RIGHT_RULES: Rules = RIGHT;
