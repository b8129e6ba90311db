//! Each wrong model against the right one, on the streams of this very run: some stream must tell them apart, and
//! the history that never forgets must object where a promise is broken. The telling stream is then shortened, and
//! the wrong model must fail on it as a service too.

use super::streams::how_many;
use super::{Count, Plan};
use crate::compare::{fault, Mode};
use crate::desk::{self, Answered, Desk};
use crate::edges;
use crate::judge::judge;
use crate::parallel;
use crate::rules::{Rules, RIGHT_RULES};
use crate::runner::Program;
use crate::shrink::shorten;
use crate::streams::{stream, Kind, Stream};
use crate::wrong::{self, Noticed, Wrong};
use std::time::Duration;

/// Streams of each kind that a wrong model is tried on; they are the first ones of the run.
fn tried(kind: Kind) -> u64 {
    how_many(kind).min(match kind {
        Kind::Tiny => 600,
        Kind::Mixed => 60,
        Kind::Deep => 30,
        _ => 300,
    })
}

/// A stream with the right answers to it.
struct Told {
    stream: Stream,
    bytes: Vec<u8>,
    answers: Vec<Answered>,
}

impl Told {
    fn new(stream: Stream) -> Told {
        let bytes = stream.concat();
        let answers = desk::answers(&RIGHT_RULES, &bytes);
        Told { stream, bytes, answers }
    }
}

/// The streams of a kind, by the kind's name.
type Group = (&'static str, Vec<Told>);

/// After how many messages of a group something showed, and in which of its streams.
struct Found {
    group: &'static str,
    messages: usize,
    stream: Stream,
    /// How many messages of that stream were needed.
    of_stream: usize,
}

pub fn run(plan: &Plan, count: &mut Count) {
    let mut groups: Vec<Group> = Kind::TESTED
        .map(|kind| (kind.name(), (0..tried(kind)).map(|i| Told::new(stream(kind, plan.seed, i))).collect()))
        .into();
    // The floods among the sweeps are there for the buffers of a real service, and tell nothing about rules.
    let sweeps = edges::all().into_iter().filter(|edge| edge.stream.len() < 2000);
    groups.push(("edges", sweeps.map(|edge| Told::new(edge.stream)).collect()));
    for (name, told) in &groups {
        let messages: usize = told.iter().map(|t| t.answers.len()).sum();
        println!("   tried on {:>5} streams with {messages} messages: {name}", told.len());
    }
    println!(
        "   {:<56}{:>8}{:>8}{:>8}{:>8}{:>8}  {:>13} {:>9}",
        "", "tiny", "mixed", "deep", "hostile", "edges", "history", "shortest"
    );
    let all: Vec<&'static Wrong> = wrong::all().collect();
    let results = parallel::map(all.len(), |index| one(plan, all[index], &groups));
    for (wrong, (row, faults)) in all.iter().zip(results) {
        println!("   {:<56}{row}", wrong.name);
        for fault in faults {
            count.check(wrong.name, fault);
        }
    }
}

/// A row of the printed table, and the checks of this wrong model.
fn one(plan: &Plan, wrong: &'static Wrong, groups: &[Group]) -> (String, Vec<Option<String>>) {
    let found: Vec<Option<Found>> = groups.iter().map(|group| first(group, |told| differs(wrong, told))).collect();
    let history = groups.iter().find_map(|group| first(group, |told| objected(wrong, told)));
    let quickest = found.iter().flatten().min_by_key(|f| f.of_stream);
    let mut row = String::new();
    for found in &found {
        row += &format!("{:>8}", found.as_ref().map_or("-".to_string(), |f| f.messages.to_string()));
    }
    row += &format!("  {:>13}", history.as_ref().map_or("-".to_string(), |h| format!("{} {}", h.group, h.messages)));
    let mut faults = vec![quickest.is_none().then(|| "no stream of this run notices it".to_string())];
    if wrong.noticed == Noticed::LinesAndHistory {
        faults.push(history.is_none().then(|| "the history does not object".to_string()));
    }
    if let Some(quickest) = quickest {
        let short = shorten(&quickest.stream, 2000, |some| differs(wrong, &Told::new(some.clone())).is_some());
        row += &format!(" {:>9}", short.len());
        faults.push(as_service(plan, wrong, &short));
    }
    (row, faults)
}

/// Looks through a group for the first stream where something shows.
fn first((name, all): &Group, shows: impl Fn(&Told) -> Option<usize>) -> Option<Found> {
    let mut messages = 0;
    for told in all {
        if let Some(of_stream) = shows(told) {
            return Some(Found { group: name, messages: messages + of_stream, stream: told.stream.clone(), of_stream });
        }
        messages += told.answers.len();
    }
    None
}

/// After how many messages a wrong model shows, where it must.
fn differs(wrong: &'static Wrong, told: &Told) -> Option<usize> {
    match wrong.noticed {
        Noticed::Listing => {
            let listings = listing(&wrong.rules, told).into_iter().zip(listing(&RIGHT_RULES, told));
            listings.into_iter().position(|(given, right)| given != right).map(|place| place + 1)
        }
        _ => {
            let given = desk::answers(&wrong.rules, &told.bytes);
            let show = |answer: Option<&Answered>, rules: &Rules| answer.map(|(_, line)| (rules.show)(line));
            let longest = given.len().max(told.answers.len());
            let mut places = 0..longest;
            let at = places.find(|&i| show(given.get(i), &wrong.rules) != show(told.answers.get(i), &RIGHT_RULES));
            at.map(|place| place + 1)
        }
    }
}

/// The kept rows by slot after each message.
fn listing(rules: &'static Rules, told: &Told) -> Vec<Vec<u32>> {
    let mut desk = Desk::new(rules);
    let messages = told.answers.iter().filter_map(|(message, _)| message.as_ref());
    let after = messages.map(|message| {
        desk.call(message);
        desk.table.kept_by_place()
    });
    after.collect()
}

/// After how many messages the history objects to the wrong model's answers.
fn objected(wrong: &'static Wrong, told: &Told) -> Option<usize> {
    let given = desk::answers(&wrong.rules, &told.bytes);
    let messages = told.answers.iter().map(|(message, _)| message.as_ref());
    judge(messages.zip(given.iter().map(|(_, line)| line))).err().map(|(count, _)| count)
}

/// The wrong model run as a service must fail on the shortened stream; where lines cannot show it, it must not.
fn as_service(plan: &Plan, wrong: &Wrong, short: &Stream) -> Option<String> {
    let service = Program::new(plan.own.clone(), &["serve", "--wrong", wrong.name], Duration::from_secs(20));
    let shows = fault(&service, &short.concat(), Mode::Whole).is_some();
    match (shows, wrong.noticed == Noticed::Listing) {
        (true, false) | (false, true) => None,
        (false, false) => Some("as a service it passes on the stream that tells it apart".to_string()),
        (true, true) => Some("its lines differ, so it should count as noticed in the lines".to_string()),
    }
}
