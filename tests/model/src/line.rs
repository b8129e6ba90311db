//! The lines that answer messages (RULES, The service).

use std::fmt;

#[derive(Clone, Debug, PartialEq, Eq)]
pub enum Line {
    Ok,
    Begin(u32),
    Commit(u32),
    Cycle(u32),
    Swept(u32),
    Good,
    Bad,
    Order(Vec<u32>),
    Refused(u8),
}

impl fmt::Display for Line {
    fn fmt(&self, f: &mut fmt::Formatter) -> fmt::Result {
        match self {
            Line::Ok => write!(f, "ok"),
            Line::Begin(n) => write!(f, "begin {n}"),
            Line::Commit(n) => write!(f, "commit {n}"),
            Line::Cycle(n) => write!(f, "cycle {n}"),
            Line::Swept(c) => write!(f, "swept {c}"),
            Line::Good => write!(f, "good"),
            Line::Bad => write!(f, "bad"),
            Line::Order(numbers) => {
                write!(f, "order")?;
                numbers.iter().try_for_each(|n| write!(f, " {n}"))
            }
            Line::Refused(k) => write!(f, "refused {k}"),
        }
    }
}

impl Line {
    /// A line from its text, none if no answer is written just so.
    pub fn read(text: &str) -> Option<Line> {
        let mut words = text.split(' ');
        let head = words.next()?;
        let numbers: Vec<u32> = words.map(|w| w.parse().ok()).collect::<Option<_>>()?;
        let line = match (head, numbers.as_slice()) {
            ("ok", []) => Line::Ok,
            ("begin", &[n]) => Line::Begin(n),
            ("commit", &[n]) => Line::Commit(n),
            ("cycle", &[n]) => Line::Cycle(n),
            ("swept", &[c]) => Line::Swept(c),
            ("good", []) => Line::Good,
            ("bad", []) => Line::Bad,
            ("order", _) => Line::Order(numbers),
            ("refused", &[k]) => Line::Refused(u8::try_from(k).ok()?),
            _ => return None,
        };
        // "+1" and "01" are numbers to the parser and not to us.
        (line.to_string() == text).then_some(line)
    }
}
