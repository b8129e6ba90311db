//! Services that are wrong on purpose, as programs: some read or write wrongly though their answers are right, which
//! the runs in pieces must notice; for one with a wrong rule, the file written out must show the fault.

use super::streams::{shortened, written};
use super::{Count, Plan};
use crate::compare::{fault, Mode};
use crate::runner::Program;
use crate::serve::HABITS;
use crate::streams::{stream, Kind};
use crate::wrong;
use std::fs;
use std::time::Duration;

pub fn run(plan: &Plan, count: &mut Count) {
    for (name, _) in HABITS {
        // These never answer what is due, so a short wait tells.
        let service = own(plan, ["--habit", name], Duration::from_millis(500));
        let mut streams = (0..20).map(|index| (index, stream(Kind::Mixed, plan.seed, index).concat()));
        let noticed = streams.find(|(index, bytes)| fault(&service, bytes, Mode::Pieces(*index)).is_some());
        if let Some((index, _)) = &noticed {
            println!("   noticed by mixed stream {index} in pieces: {name}");
        }
        count.check(name, noticed.is_none().then(|| "no run in pieces notices it".to_string()));
    }
    for name in ["only two-transaction cycles count", "a message cut off gets no line"] {
        count.check(&format!("{name}, the file written out"), file_shows(plan, name).err());
    }
}

fn own(plan: &Plan, words: [&str; 2], patience: Duration) -> Program {
    Program::new(plan.own.clone(), &["serve", words[0], words[1]], patience)
}

/// Runs a wrong service until a stream fails, and looks whether the file written for it, given to the wrong service
/// and to the right one, tells the two apart.
fn file_shows(plan: &Plan, name: &str) -> Result<(), String> {
    wrong::named(name).ok_or("there is no such wrong model")?;
    let wrong = own(plan, ["--wrong", name], Duration::from_secs(20));
    let right = Program::new(plan.own.clone(), &["serve"], Duration::from_secs(20));
    let kinds = [Kind::Deep, Kind::Hostile].into_iter();
    let mut streams = kinds.flat_map(|kind| (0..20).map(move |index| stream(kind, plan.seed, index)));
    let failing = streams.find(|pieces| fault(&wrong, &pieces.concat(), Mode::Whole).is_some());
    let failing = failing.ok_or("no stream notices it")?;
    let (stream, expected) = written(&plan.out.join("on-purpose"), &shortened(&wrong, &failing, Mode::Whole))?;
    let read = |path| fs::read(path).map_err(|e| format!("what was written cannot be read: {e}"));
    let (bytes, expected) = (read(stream)?, read(expected)?);
    println!("   a file of {} bytes shows, for a stream of {}: {name}", bytes.len(), failing.concat().len());
    match (wrong.whole(&bytes), right.whole(&bytes)) {
        (Err(trouble), _) | (_, Err(trouble)) => Err(trouble.to_string()),
        (Ok(got), _) if got == expected => Err("the wrong service passes on the file".to_string()),
        (_, Ok(got)) if got != expected => Err("the right service fails on the file".to_string()),
        _ => Ok(()),
    }
}
