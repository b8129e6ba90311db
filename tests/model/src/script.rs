//! Trials that people can read: messages in words with the line that must answer each (trials.txt, edges.txt), and the
//! rows of bytes and lines in RULES. Expected lines are written down there by hand, so they hold the model too.

use crate::bytes::Message;

pub struct Trial {
    pub label: String,
    pub steps: Vec<Step>,
}

pub enum Step {
    /// Bytes sent to the service; without a line if they are not answered by themselves.
    Send(Vec<u8>, Option<String>),
    /// Two lists for the C call, and its answer.
    Check { rows: Vec<u8>, order: Vec<u8>, answer: u32 },
}

/// Reads a script. `== LABEL` begins a trial, `#` a remark, `->` stands before the answer.
pub fn read(name: &str, text: &str) -> Result<Vec<Trial>, String> {
    let mut trials: Vec<Trial> = Vec::new();
    for (number, line) in (1..).zip(text.lines()) {
        let line = line.split('#').next().unwrap_or_default().trim();
        if let Some(label) = line.strip_prefix("==") {
            trials.push(Trial { label: label.trim().to_string(), steps: Vec::new() });
        } else if !line.is_empty() {
            let trial = trials.last_mut().ok_or(format!("{name}:{number}: a line before the first trial"))?;
            let step = step(line).ok_or(format!("{name}:{number}: not understood: {line}"))?;
            trial.steps.push(step);
        }
    }
    Ok(trials)
}

fn step(line: &str) -> Option<Step> {
    let (said, answer) = match line.split_once("->") {
        Some((said, answer)) => (said.trim(), Some(answer.trim().to_string())),
        None => (line, None),
    };
    let words: Vec<&str> = said.split_whitespace().collect();
    if let ["check", lists @ ..] = words.as_slice() {
        let at = lists.iter().position(|&w| w == "order")?;
        let rows = lists[..at].iter().map(|w| row(w)).collect::<Option<Vec<_>>>()?.concat();
        let order = numbers(&lists[at + 1..])?.iter().flat_map(|n| n.to_be_bytes()).collect();
        return Some(Step::Check { rows, order, answer: answer?.parse().ok()? });
    }
    let bytes = match words.as_slice() {
        ["bytes", pairs @ ..] => hex(pairs)?,
        words => message(words)?.bytes(),
    };
    Some(Step::Send(bytes, answer))
}

/// A message in words.
fn message(words: &[&str]) -> Option<Message> {
    Some(match words {
        ["open", first, "floors", floors @ ..] => {
            Message::Open { first: first.parse().ok()?, floors: numbers(floors)? }
        }
        ["begin", "at", sites @ ..] => {
            let list = |sites: Vec<u32>| sites.iter().try_fold(0, |l, &s| Some(l | 1_u8.checked_shl(s)?));
            Message::Begin { sites: list(numbers(sites)?)? }
        }
        ["ticket", number, "at", site, "takes", ticket] => {
            Message::Ticket { number: number.parse().ok()?, site: site.parse().ok()?, ticket: ticket.parse().ok()? }
        }
        ["prepared", number, "at", site] => {
            Message::Prepared { number: number.parse().ok()?, site: site.parse().ok()? }
        }
        ["abort", number] => Message::Abort { number: number.parse().ok()? },
        ["decide", number] => Message::Decide { number: number.parse().ok()? },
        ["forget", number] => Message::Forget { number: number.parse().ok()? },
        ["sweep"] => Message::Sweep,
        ["order"] => Message::Order,
        ["propose", order @ ..] => Message::Propose { order: numbers(order)? },
        _ => return None,
    })
}

fn numbers(words: &[&str]) -> Option<Vec<u32>> {
    words.iter().map(|w| w.parse().ok()).collect()
}

fn hex(pairs: &[&str]) -> Option<Vec<u8>> {
    let pair = |p: &&str| u8::from_str_radix(p, 16).ok().filter(|_| p.len() == 2);
    pairs.iter().map(pair).collect()
}

/// `2:0,7` is row 2 with ticket 7 at site 1; tickets left out are 0.
fn row(word: &str) -> Option<Vec<u8>> {
    let (number, tickets) = word.split_once(':')?;
    let mut words: Vec<u32> = vec![number.parse().ok()?];
    for ticket in tickets.split(',') {
        words.push(ticket.parse().ok()?);
    }
    let spare = 9_usize.checked_sub(words.len())?;
    words.extend(vec![0; spare]);
    Some(words.iter().flat_map(|w| w.to_be_bytes()).collect())
}

/// The rows of a table in a document whose first cell has bytes and whose last has the line, both in backquotes.
pub fn example(text: &str) -> Vec<Step> {
    let quoted = |cell: &str| Some(cell.trim().strip_prefix('`')?.strip_suffix('`')?.to_string());
    let row = |line: &str| {
        let cells: Vec<&str> = line.strip_prefix('|')?.strip_suffix('|')?.split('|').collect();
        let (first, last) = (quoted(cells.first()?)?, quoted(cells.last()?)?);
        let pairs: Vec<&str> = first.split(' ').collect();
        Some(Step::Send(hex(&pairs)?, Some(last)))
    };
    text.lines().filter_map(row).collect()
}
