//! Mistakes in reading messages (RULES, Messages).

use super::{visible, Wrong};
use crate::bytes::{frame, read_body, Frame, Message};
use crate::line::Line;
use crate::rules::{Rules, RIGHT};

pub static WRONG: &[Wrong] = &[
    visible(
        "bodies of 161 bytes are read",
        Rules {
            frame: |s| match s {
                [1, 0, 161, rest @ ..] if rest.len() < 161 => Frame::More,
                [1, 0, 161, ..] => Frame::Body(161),
                _ => frame(s),
            },
            ..RIGHT
        },
    ),
    visible(
        "bodies of 160 bytes are not read",
        Rules { frame: |s| if let [1, 0, 160, ..] = s { Frame::Broken } else { frame(s) }, ..RIGHT },
    ),
    visible(
        "the upper length byte is not looked at",
        Rules {
            frame: |s| match s {
                [1, _, low, rest @ ..] => frame(&[&[1, 0, *low], rest].concat()),
                _ => frame(s),
            },
            ..RIGHT
        },
    ),
    visible(
        "the length's bytes are the other way round",
        Rules {
            frame: |s| match s {
                [1, high, low, rest @ ..] => frame(&[&[1, *low, *high], rest].concat()),
                _ => frame(s),
            },
            ..RIGHT
        },
    ),
    visible(
        "any version is read",
        Rules {
            frame: |s| match s {
                [_, rest @ ..] => frame(&[&[1], rest].concat()),
                [] => Frame::More,
            },
            ..RIGHT
        },
    ),
    visible(
        "version 0 is read too",
        Rules {
            frame: |s| match s {
                [0, rest @ ..] => frame(&[&[1], rest].concat()),
                _ => frame(s),
            },
            ..RIGHT
        },
    ),
    visible(
        "an empty body is 11",
        Rules { frame: |s| if let [1, 0, 0, ..] = s { Frame::Broken } else { frame(s) }, ..RIGHT },
    ),
    visible("reading ends at a 10", Rules { goes_on: false, ..RIGHT }),
    visible("a message cut off gets no line", Rules { cut: |_| None, ..RIGHT }),
    visible(
        "a header cut off gets no line",
        Rules { cut: |left| (left.len() >= 3).then_some(Line::Refused(11)), ..RIGHT },
    ),
    visible("an empty end of input gets a line", Rules { cut: |_| Some(Line::Refused(11)), ..RIGHT }),
    visible(
        "bytes behind the fields are ignored",
        Rules { read: |body| (1..=body.len()).rev().find_map(|end| read_body(&body[..end])), ..RIGHT },
    ),
    visible(
        "kind 10 is a sweep",
        Rules { read: |body| if *body == [10] { Some(Message::Sweep) } else { read_body(body) }, ..RIGHT },
    ),
    visible(
        "an opening without floors is 10",
        Rules {
            read: |body| read_body(body).filter(|m| !matches!(m, Message::Open { floors, .. } if floors.is_empty())),
            ..RIGHT
        },
    ),
    visible(
        "an opening with over eight floors is 10",
        Rules {
            read: |body| read_body(body).filter(|m| !matches!(m, Message::Open { floors, .. } if floors.len() > 8)),
            ..RIGHT
        },
    ),
    visible(
        "an empty proposal is 10",
        Rules { read: |body| read_body(body).filter(|m| *m != Message::Propose { order: Vec::new() }), ..RIGHT },
    ),
    visible(
        "a proposal of over 32 numbers is 10",
        Rules {
            read: |body| read_body(body).filter(|m| !matches!(m, Message::Propose { order } if order.len() > 32)),
            ..RIGHT
        },
    ),
    visible(
        "only the lower three bits of a site are read",
        Rules {
            read: |body| {
                Some(match read_body(body)? {
                    Message::Ticket { number, site, ticket } => Message::Ticket { number, site: site & 7, ticket },
                    Message::Prepared { number, site } => Message::Prepared { number, site: site & 7 },
                    message => message,
                })
            },
            ..RIGHT
        },
    ),
    visible(
        "tickets are read the other way round",
        Rules {
            read: |body| {
                Some(match read_body(body)? {
                    Message::Ticket { number, site, ticket } => {
                        Message::Ticket { number, site, ticket: ticket.swap_bytes() }
                    }
                    message => message,
                })
            },
            ..RIGHT
        },
    ),
    visible(
        "bit i of a site list is site 7 - i",
        Rules {
            read: |body| {
                Some(match read_body(body)? {
                    Message::Begin { sites } => Message::Begin { sites: sites.reverse_bits() },
                    message => message,
                })
            },
            ..RIGHT
        },
    ),
];
