//! The model as a service on standard input and output: to try the tests without the real one, to have lines to
//! compare with, and, with a wrong model or a bad habit, to see that the tests notice.

use crate::desk::{Answered, Desk};
use crate::rules::Rules;
use std::io::{self, Read, Write};

/// Ways to read and write wrongly, by name.
pub const HABITS: [(&str, Habit); 4] = [
    ("answers only at the end", Habit::Late),
    ("loses what a read cuts off", Habit::Forgetful),
    ("answers one message a read", Habit::Slow),
    ("writes a line of a cut message twice", Habit::Double),
];

#[derive(Clone, Copy, PartialEq, Eq)]
pub enum Habit {
    Good,
    Late,
    Forgetful,
    Slow,
    Double,
}

pub fn serve(rules: &'static Rules, habit: Habit) -> io::Result<()> {
    let mut desk = Desk::new(rules);
    let mut input = io::stdin().lock();
    let mut output = io::stdout().lock();
    let mut buffer = [0; 1 << 16];
    let mut kept = Vec::new();
    let text = |rules: &Rules, answers: &[Answered]| -> String {
        answers.iter().map(|(_, line)| (rules.show)(line) + "\n").collect()
    };
    loop {
        let length = input.read(&mut buffer)?;
        if length == 0 {
            break;
        }
        let begun = desk.is_inside_a_message();
        let mut answers = desk.feed(&buffer[..length]);
        match habit {
            Habit::Good => (),
            Habit::Late => kept.append(&mut answers),
            Habit::Forgetful => desk.drop_what_waits(),
            Habit::Slow => {
                kept.append(&mut answers);
                answers.extend((!kept.is_empty()).then(|| kept.remove(0)));
            }
            Habit::Double => answers.extend(answers.first().filter(|_| begun).cloned()),
        }
        output.write_all(text(rules, &answers).as_bytes())?;
        output.flush()?;
    }
    kept.extend(desk.finish());
    output.write_all(text(rules, &kept).as_bytes())?;
    output.flush()
}
