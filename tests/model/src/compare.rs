//! One stream through the service and through the model, and the first difference between the two.

use crate::desk;
use crate::judge::judge;
use crate::line::Line;
use crate::random::Random;
use crate::rules::RIGHT_RULES;
use crate::runner::{Program, Trouble};
use crate::tally::Tally;

#[derive(Clone, Copy, PartialEq, Eq, Debug)]
pub enum Mode {
    Whole,
    /// Cut at places drawn from this seed.
    Pieces(u64),
    Bytes,
}

impl Mode {
    pub fn name(self) -> &'static str {
        match self {
            Mode::Whole => "whole",
            Mode::Pieces(_) => "in pieces",
            Mode::Bytes => "byte by byte",
        }
    }

    fn cuts(self, length: usize) -> Vec<usize> {
        match self {
            Mode::Whole => Vec::new(),
            Mode::Bytes => (1..length).collect(),
            Mode::Pieces(seed) => {
                let mut random = Random::new(seed, 0, length as u64);
                // Some streams in crumbs, most in handfuls: every piece costs a wait.
                let size = random.pick(&[3, 17, 40, 160, 700]).unwrap_or(17).max(length / 100);
                let mut cuts = Vec::new();
                let mut at = 1 + random.below(2 * size);
                while at < length {
                    cuts.push(at);
                    at += 1 + random.below(2 * size);
                }
                cuts
            }
        }
    }
}

/// What the service wrote, or why it could not be had.
pub fn output(program: &Program, stream: &[u8], mode: Mode) -> Result<String, Trouble> {
    let bytes = match mode {
        Mode::Whole => program.whole(stream),
        _ => program.pieces(stream, &mode.cuts(stream.len())),
    }?;
    String::from_utf8(bytes).map_err(|_| Trouble::Failed("the service wrote bytes that are no text".to_string()))
}

/// The first line that differs from what is expected, in a sentence.
pub fn difference(expected: &str, got: &str) -> Option<String> {
    if expected == got {
        return None;
    }
    let (mut want, mut have) = (expected.split('\n'), got.split('\n'));
    let mut number = 1;
    loop {
        match (want.next(), have.next()) {
            (Some(want), Some(have)) if want == have => number += 1,
            (want, have) => {
                let shown = |line: Option<&str>| match line {
                    None | Some("") => "nothing".to_string(),
                    Some(line) => format!("'{line}'"),
                };
                return Some(format!("line {number} should be {} and is {}", shown(want), shown(have)));
            }
        }
    }
}

/// What is wrong with the service on this stream, if anything. Wrong lines are reported as a failure.
pub fn fault(program: &Program, stream: &[u8], mode: Mode) -> Option<Trouble> {
    let expected = desk::text(&RIGHT_RULES, stream);
    match output(program, stream, mode) {
        Ok(got) => difference(&expected, &got).map(Trouble::Failed),
        Err(trouble) => Some(trouble),
    }
}

/// Counts the lines of an output, and holds them to what is promised of the run as a whole.
pub fn judged(stream: &[u8], output: &str, tally: &mut Tally) -> Option<String> {
    let lines: Vec<Line> = match output.lines().map(Line::read).collect() {
        Some(lines) => lines,
        None => return Some("a line is none of those that can be".to_string()),
    };
    lines.iter().for_each(|line| tally.count_line(line));
    let messages = desk::answers(&RIGHT_RULES, stream);
    let pairs = messages.iter().map(|(message, _)| message.as_ref()).zip(&lines);
    judge(pairs).err().map(|(count, broken)| format!("after {count} messages: {broken}"))
}
