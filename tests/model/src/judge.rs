//! Judges the service's own answers, message by message, by what is promised, reading everything off a history that
//! never forgets (history.rs). A sweep is judged as forgetting one by one until nothing more may be forgotten.

use crate::bytes::Message;
use crate::history::{History, Life};
use crate::line::Line;
use crate::rows::{MOST_SITES, SLOTS};
use crate::table::sites_of;

/// What was broken, in a sentence.
type Verdict = Result<(), String>;

fn promise(holds: bool, broken: impl FnOnce() -> String) -> Verdict {
    if holds {
        Ok(())
    } else {
        Err(broken())
    }
}

/// Judges a whole stream by its messages and the answers given to them; tells after how many messages it objected.
pub fn judge<'a>(answered: impl Iterator<Item = (Option<&'a Message>, &'a Line)>) -> Result<(), (usize, String)> {
    let mut judge = Judge::default();
    let mut count = 0;
    for (message, line) in answered {
        count += 1;
        if let Some(message) = message {
            judge.see(message, line).map_err(|broken| (count, broken))?;
        }
    }
    judge.close().map_err(|broken| (count, broken))
}

#[derive(Default)]
struct Judge(History);

impl Judge {
    /// Judges one answer and, where it was not a refusal, makes it part of the history.
    fn see(&mut self, message: &Message, line: &Line) -> Verdict {
        self.0.now += 1;
        if let Line::Refused(refusal) = line {
            return promise(self.may_refuse(message, *refusal), || {
                format!("{message:?} was refused with {refusal}, which the run does not bear out")
            });
        }
        if let Some(number) = message.number() {
            promise(self.0.holds(number, Life::in_table), || format!("{number} is not in the table: {line}"))?;
        }
        match (message, line) {
            (Message::Open { first, floors }, Line::Ok) => {
                promise(self.0.floors.is_empty(), || "a second opening was accepted".to_string())?;
                promise(opens(*first, floors), || "a bad opening was accepted".to_string())?;
                (self.0.first, self.0.floors) = (*first, floors.clone());
                Ok(())
            }
            (Message::Begin { sites }, Line::Begin(number)) => self.begun(*number, sites_of(*sites)),
            (Message::Ticket { number, site, ticket }, Line::Ok) => self.ticketed(*number, *site, *ticket),
            (Message::Prepared { number, site }, Line::Ok) => self.prepared(*number, *site),
            (Message::Abort { number }, Line::Ok) => self.aborted(*number),
            (Message::Decide { number }, Line::Commit(n) | Line::Cycle(n)) if n == number => {
                self.decided(*number, matches!(line, Line::Commit(_)))
            }
            (Message::Forget { number }, Line::Ok) => {
                promise(self.0.may_forget(*number), || format!("{number} was forgotten too early"))?;
                self.0.life(*number).forgotten = Some(self.0.now);
                Ok(())
            }
            (Message::Sweep, Line::Swept(count)) => self.swept(*count),
            (Message::Propose { order }, Line::Good | Line::Bad) => {
                let good = self.0.is_order(order);
                promise(good == (*line == Line::Good), || format!("the order {order:?} was answered {line}"))
            }
            (Message::Order, Line::Order(order)) => self.ordered(order),
            _ => Err(format!("{message:?} has no answer {line}")),
        }
    }

    /// Whether the condition of this refusal holds, going by the history.
    fn may_refuse(&self, message: &Message, refusal: u8) -> bool {
        let history = &self.0;
        let closed = history.floors.is_empty();
        let known = message.number().is_none_or(|n| history.holds(n, Life::in_table));
        match refusal {
            1 => closed && !matches!(message, Message::Open { first, floors } if opens(*first, floors)),
            _ if closed => false,
            2 => !known,
            _ if !known => false,
            3 => match message {
                Message::Begin { sites } => !self.can_list(&sites_of(*sites)),
                Message::Ticket { number, site, .. } | Message::Prepared { number, site } => {
                    history.holds(*number, |life| !life.sites.contains(site))
                }
                _ => false,
            },
            4 => match message {
                Message::Open { .. } => true,
                Message::Ticket { number, site, .. } => history.holds(*number, |life| life.tickets.contains_key(site)),
                Message::Prepared { number, site } => history.holds(*number, |life| {
                    life.prepared.contains(site) || life.sites.contains(site) && !life.tickets.contains_key(site)
                }),
                Message::Abort { number } => history.holds(*number, Life::is_over),
                Message::Decide { number } => history.holds(*number, |life| life.is_over() || !life.is_prepared()),
                Message::Forget { number } => history.holds(*number, |life| !life.is_over()),
                _ => false,
            },
            5 | 6 => match *message {
                Message::Ticket { number, site, ticket } => {
                    let low = ticket <= history.base(number, site);
                    if refusal == 5 {
                        low
                    } else {
                        !low && history.held_by_another(number, site, ticket)
                    }
                }
                _ => false,
            },
            7 => {
                matches!(message, Message::Begin { .. })
                    && history.in_table() == SLOTS
                    && history.next_number().is_some()
            }
            8 => matches!(message, Message::Begin { .. }) && history.next_number().is_none(),
            9 => match *message {
                Message::Forget { number } => history.holds(number, Life::is_kept) && !history.may_forget(number),
                _ => false,
            },
            _ => false,
        }
    }

    fn can_list(&self, sites: &[u8]) -> bool {
        !sites.is_empty() && sites.iter().all(|&s| usize::from(s) < self.0.floors.len())
    }

    fn begun(&mut self, number: u32, sites: Vec<u8>) -> Verdict {
        promise(self.0.next_number() == Some(number), || format!("begin gave {number}, out of sequence"))?;
        promise(self.0.in_table() < SLOTS, || format!("begin gave {number} over a full table"))?;
        promise(self.can_list(&sites), || format!("begin gave {number} with a wrong site list"))?;
        let begun = self.0.now;
        self.0.lives.insert(number, Life { sites, begun, ..Life::default() });
        Ok(())
    }

    fn ticketed(&mut self, number: u32, site: u8, ticket: u32) -> Verdict {
        let base = self.0.base(number, site);
        promise(ticket > base, || format!("{number} took ticket {ticket} at {site}, not above {base}"))?;
        let held = self.0.held_by_another(number, site, ticket);
        promise(!held, || format!("{number} took ticket {ticket} at {site}, which another holds"))?;
        let life = self.0.life(number);
        let in_turn = life.sites.contains(&site) && !life.tickets.contains_key(&site) && !life.is_over();
        promise(in_turn, || format!("{number} took a ticket at {site} out of turn"))?;
        life.tickets.insert(site, ticket);
        Ok(())
    }

    fn prepared(&mut self, number: u32, site: u8) -> Verdict {
        let life = self.0.life(number);
        let in_turn = life.tickets.contains_key(&site) && !life.prepared.contains(&site) && !life.is_over();
        promise(in_turn, || format!("{number} was prepared at {site} out of turn"))?;
        life.prepared.insert(site);
        Ok(())
    }

    fn aborted(&mut self, number: u32) -> Verdict {
        let now = self.0.now;
        let life = self.0.life(number);
        promise(!life.is_over(), || format!("{number} was aborted when it was over"))?;
        life.dropped = Some(now);
        Ok(())
    }

    /// A commit may make no cycle among all ever committed, the forgotten ones too; a cycle must be one among them.
    /// That the service looks at the kept ones alone must make no difference.
    fn decided(&mut self, number: u32, commits: bool) -> Verdict {
        let now = self.0.now;
        let life = self.0.life(number);
        promise(!life.is_over() && life.is_prepared(), || format!("{number} was decided out of turn"))?;
        let tickets = life.tickets.clone();
        for (&site, &ticket) in &tickets {
            let before = self.0.taken.entry(site).or_default().insert(ticket, number);
            promise(before.is_none(), || format!("ticket {ticket} at {site} was committed twice"))?;
        }
        let cycle = self.0.leads_back(number);
        promise(commits != cycle, || match cycle {
            true => format!("{number} committed, and the rows ever committed have no order any more"),
            false => format!("{number} was answered cycle, and there is none among the rows ever committed"),
        })?;
        if commits {
            self.0.life(number).committed = Some(now);
        } else {
            self.0.life(number).dropped = Some(now);
            for (site, ticket) in &tickets {
                self.0.taken.entry(*site).or_default().remove(ticket);
            }
        }
        Ok(())
    }

    fn swept(&mut self, count: u32) -> Verdict {
        let mut gone = 0;
        loop {
            let next = self.0.kept().map(|(n, _)| n).find(|&n| self.0.may_forget(n));
            let Some(number) = next else { break };
            self.0.life(number).forgotten = Some(self.0.now);
            gone += 1;
        }
        promise(gone == count, || format!("swept {count}, and forgetting one by one takes {gone}"))
    }

    /// At each place: any smaller number further on has a predecessor that stands here or further on.
    fn ordered(&self, order: &[u32]) -> Verdict {
        promise(self.0.is_order(order), || format!("{order:?} is no order of the kept rows"))?;
        let rows: Vec<&Life> = order.iter().filter_map(|n| self.0.lives.get(n)).collect();
        for place in 0..order.len() {
            for later in place + 1..order.len() {
                let waits = rows[place..].iter().any(|row| row.precedes(rows[later]));
                promise(order[later] > order[place] || waits, || {
                    format!("{} should stand at place {place} of {order:?}", order[later])
                })?;
            }
        }
        Ok(())
    }

    /// At the end: all ever committed, forgotten ones too, stand in one order in which every site's tickets rise.
    fn close(&self) -> Verdict {
        let place = self.0.places();
        let all = self.0.committed().all(|(number, _)| place.contains_key(number));
        promise(all, || "the rows ever committed have no order".to_string())?;
        for tickets in self.0.taken.values() {
            let places: Vec<Option<&usize>> = tickets.values().map(|n| place.get(n)).collect();
            promise(places.windows(2).all(|p| p[0] < p[1]), || "the order found is none".to_string())?;
        }
        Ok(())
    }
}

fn opens(first: u32, floors: &[u32]) -> bool {
    first != 0 && (1..=MOST_SITES).contains(&floors.len())
}
