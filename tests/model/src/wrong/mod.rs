//! Wrong models: the right one with a single rule exchanged for a mistake that someone could make. The run must
//! notice each of them, or it would not notice a service with the same mistake.

mod bytes;
mod cycles;
mod forgetting;
mod lists;
mod numbers;
mod sequences;
mod stages;
mod tickets;

pub mod checks;

use crate::bytes::Message;
use crate::calls;
use crate::line::Line;
use crate::rules::Rules;
use crate::table::{Table, Transaction};

pub struct Wrong {
    /// The mistake, as a claim.
    pub name: &'static str,
    pub rules: Rules,
    pub noticed: Noticed,
}

/// Where a mistake must show.
#[derive(Clone, Copy, PartialEq, Eq, Debug)]
pub enum Noticed {
    /// In the lines, and the history that never forgets must object as well.
    LinesAndHistory,
    /// In the lines; nothing that is promised of the run as a whole is broken.
    Lines,
    /// Only in the list of kept rows by slot. No line depends on slots: the written order does not, nor the check.
    Listing,
}

const fn broken(name: &'static str, rules: Rules) -> Wrong {
    Wrong { name, rules, noticed: Noticed::LinesAndHistory }
}

const fn visible(name: &'static str, rules: Rules) -> Wrong {
    Wrong { name, rules, noticed: Noticed::Lines }
}

const fn listed(name: &'static str, rules: Rules) -> Wrong {
    Wrong { name, rules, noticed: Noticed::Listing }
}

pub fn all() -> impl Iterator<Item = &'static Wrong> {
    let lists = [cycles::WRONG, forgetting::WRONG, tickets::WRONG, stages::WRONG, numbers::WRONG];
    lists.into_iter().chain([sequences::WRONG, lists::WRONG, bytes::WRONG]).flatten()
}

pub fn named(name: &str) -> Option<&'static Wrong> {
    all().find(|wrong| wrong.name == name)
}

/// The effects with something done to a transaction newly begun; it is told the slots of the others.
fn after_begin(rules: &Rules, table: &mut Table, message: &Message, then: impl Fn(&mut Transaction, &[usize])) -> Line {
    let others: Vec<usize> = table.all.values().map(|t| t.place).collect();
    let line = calls::effect(rules, table, message);
    if let Line::Begin(number) = line {
        table.all.entry(number).and_modify(|t| then(t, &others));
    }
    line
}
