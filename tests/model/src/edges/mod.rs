//! Sweeps over the edges of the rules, each with the lines worked out from the rule by a formula and not by the model
//! (RULES, Refusals, Messages and Limits). What needs a story rather than a formula stands in edges.txt.

mod bytes;
mod graph;
mod table;

use crate::bytes::Message;
use crate::streams::Stream;

pub struct Edge {
    pub label: String,
    pub stream: Stream,
    pub lines: Vec<String>,
}

const MAX: u32 = u32::MAX;

/// A stream under construction, with the line that each message must get.
struct Draft {
    label: String,
    stream: Stream,
    lines: Vec<String>,
}

impl Draft {
    fn new(label: impl Into<String>) -> Draft {
        Draft { label: label.into(), stream: Vec::new(), lines: Vec::new() }
    }

    fn opened(label: impl Into<String>, sites: usize) -> Draft {
        let mut draft = Draft::new(label);
        draft.say(Message::Open { first: 1, floors: vec![0; sites] }, "ok");
        draft
    }

    fn say(&mut self, message: Message, line: impl Into<String>) {
        self.raw(message.bytes(), line);
    }

    fn raw(&mut self, bytes: Vec<u8>, line: impl Into<String>) {
        self.unanswered(bytes);
        self.lines.push(line.into());
    }

    fn unanswered(&mut self, bytes: Vec<u8>) {
        self.stream.push(bytes);
    }

    /// Tickets and prepared for all sites of a transaction, which all must be taken.
    fn prepare(&mut self, number: u32, tickets: &[(u8, u32)]) {
        for &(site, ticket) in tickets {
            self.say(Message::Ticket { number, site, ticket }, "ok");
            self.say(Message::Prepared { number, site }, "ok");
        }
    }

    fn done(self) -> Edge {
        Edge { label: self.label, stream: self.stream, lines: self.lines }
    }
}

fn refused(number: u8) -> String {
    format!("refused {number}")
}

pub fn all() -> Vec<Edge> {
    let mut out = Vec::new();
    for kind in (0..=11).chain([127, 128, 255]) {
        out.push(bytes::lengths(kind, true));
        out.push(bytes::lengths(kind, false));
    }
    out.extend((0..=255).map(bytes::version));
    out.extend([161, 162, 255, 256, 257, 416, 65535].map(bytes::too_long));
    out.extend(bytes::cuts());
    for sites in 1..=8 {
        out.push(table::site_lists(sites));
        out.push(table::reports_by_site(sites));
    }
    out.extend((0..=38).map(table::floors));
    out.extend([1, 2, MAX - 2, MAX - 1, MAX].map(table::numbers));
    out.push(table::numbers_and_slots());
    for floor in [0, 1, 5, MAX - 1, MAX] {
        out.push(table::tickets_over(floor));
    }
    out.extend([0, 1, 16, 31, 32].map(table::slots));
    out.extend([0, 1, 2, 31, 32].map(graph::proposals));
    for length in 2..=8 {
        out.extend((0..length).map(|last| graph::ring(length, last, true)));
        out.extend((0..length).map(|last| graph::ring(length, last, false)));
    }
    out.extend([1, 2, 30, 31].map(graph::ladder));
    out.push(graph::longest_lines());
    out.push(bytes::empty_bodies());
    out
}
