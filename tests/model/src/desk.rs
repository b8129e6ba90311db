//! From a stream of bytes to lines (RULES, The service): the model as a whole, fed in any pieces.

use crate::bytes::{Frame, Message};
use crate::line::Line;
use crate::rules::Rules;
use crate::table::Table;

pub struct Desk {
    rules: &'static Rules,
    pub table: Table,
    waiting: Vec<u8>,
    ended: bool,
}

/// A message and its answer. There is no message where the bytes stand for none.
pub type Answered = (Option<Message>, Line);

impl Desk {
    pub fn new(rules: &'static Rules) -> Desk {
        Desk { rules, table: Table::default(), waiting: Vec::new(), ended: false }
    }

    pub fn call(&mut self, message: &Message) -> Line {
        let rules = self.rules;
        let mut checks = (rules.sequence)(message).iter().copied();
        match checks.find(|&refusal| (rules.condition)(refusal, &self.table, message)) {
            Some(refusal) => {
                (rules.refused)(&mut self.table, message, refusal);
                Line::Refused(refusal)
            }
            None => (rules.effect)(rules, &mut self.table, message),
        }
    }

    /// Takes in some bytes and answers each message that is whole by now.
    pub fn feed(&mut self, bytes: &[u8]) -> Vec<Answered> {
        let mut out = Vec::new();
        if self.ended {
            return out;
        }
        self.waiting.extend(bytes);
        let mut at = 0;
        while !self.ended {
            match (self.rules.frame)(&self.waiting[at..]) {
                Frame::More => break,
                Frame::Broken => {
                    self.ended = true;
                    out.push((None, Line::Refused(11)));
                }
                Frame::Body(length) => {
                    let start = self.waiting.len().min(at + 3);
                    let end = self.waiting.len().min(start + length);
                    let message = (self.rules.read)(&self.waiting[start..end]);
                    at = end;
                    let line = match &message {
                        Some(message) => self.call(message),
                        None => {
                            self.ended = !self.rules.goes_on;
                            (self.rules.unread)(&self.table)
                        }
                    };
                    out.push((message, line));
                }
            }
        }
        self.waiting.drain(..at);
        out
    }

    /// The end of input: a message cut off is answered 11, nothing at all is not answered.
    pub fn finish(&mut self) -> Option<Answered> {
        if self.ended {
            return None;
        }
        self.ended = true;
        (self.rules.cut)(&self.waiting).map(|line| (None, line))
    }

    pub fn is_inside_a_message(&self) -> bool {
        !self.waiting.is_empty()
    }

    /// Loses the part of a message that has come so far; only a service with a bad habit does this.
    pub fn drop_what_waits(&mut self) {
        self.waiting.clear();
    }
}

/// Everything that a whole stream is answered.
pub fn answers(rules: &'static Rules, stream: &[u8]) -> Vec<Answered> {
    let mut desk = Desk::new(rules);
    let mut out = desk.feed(stream);
    out.extend(desk.finish());
    out
}

/// The same as the text that the service writes.
pub fn text(rules: &'static Rules, stream: &[u8]) -> String {
    answers(rules, stream).iter().map(|(_, line)| (rules.show)(line) + "\n").collect()
}
