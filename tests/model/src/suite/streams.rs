//! Random streams through the service, whole and in pieces, against the model and against the history that never
//! forgets. A failing stream is shortened and written out.

use super::{Count, Plan};
use crate::compare::{difference, fault, judged, output, Mode};
use crate::desk;
use crate::parallel;
use crate::rules::RIGHT_RULES;
use crate::runner::{Program, Trouble};
use crate::shrink::shorten;
use crate::streams::{stream, Kind, Stream};
use crate::tally::Tally;
use std::fs;
use std::path::{Path, PathBuf};
use std::sync::atomic::{AtomicUsize, Ordering};

/// How many streams of each kind a run has.
pub fn how_many(kind: Kind) -> u64 {
    match kind {
        Kind::Tiny => 3000,
        Kind::Mixed => 500,
        Kind::Deep => 150,
        Kind::Hostile => 1500,
        Kind::Ordinary => 0,
    }
}

/// A service that fails this often is not worth more runs of the same kind.
const ENOUGH: usize = 5;
/// How often a failing stream is tried again to shorten it.
const TRIES: usize = 1500;

pub fn run(plan: &Plan, count: &mut Count) {
    let Ok(service) = &plan.service else { return };
    for kind in Kind::TESTED {
        let failures = AtomicUsize::new(0);
        let results = parallel::map(how_many(kind) as usize, |index| {
            if failures.load(Ordering::Relaxed) >= ENOUGH {
                return None;
            }
            let result = one(plan, service, kind, index as u64);
            if result.faults.iter().any(|(_, fault)| fault.is_some()) {
                failures.fetch_add(1, Ordering::Relaxed);
            }
            Some(result)
        });
        let results: Vec<Outcome> = results.into_iter().flatten().collect();
        let messages: usize = results.iter().map(|r| r.messages).sum();
        println!("   {:<8}{:>6} streams with {messages} messages, whole and in pieces", kind.name(), results.len());
        if results.len() < how_many(kind) as usize {
            println!("   {} is given up, since {ENOUGH} of its streams failed", kind.name());
        }
        let mut faults = Vec::new();
        for result in results {
            count.lines.add(result.tally);
            faults.extend(result.faults);
        }
        count.check_all(faults);
    }
}

struct Outcome {
    messages: usize,
    tally: Tally,
    faults: Vec<(String, Option<String>)>,
}

fn one(plan: &Plan, service: &Program, kind: Kind, index: u64) -> Outcome {
    let pieces = stream(kind, plan.seed, index);
    let bytes = pieces.concat();
    let expected = desk::text(&RIGHT_RULES, &bytes);
    let name = format!("{}-{}-{index}", kind.name(), plan.seed);
    let mut tally = Tally::default();
    let mut faults = Vec::new();
    let mut failed = false;
    for mode in [Mode::Whole, Mode::Pieces(plan.seed ^ index)] {
        let got = output(service, &bytes, mode);
        if let (Mode::Whole, Ok(got)) = (mode, &got) {
            faults.push((format!("{name}, promises"), judged(&bytes, got, &mut tally)));
        }
        let wrong = match got {
            Ok(got) => difference(&expected, &got).map(Trouble::Failed),
            Err(trouble) => Some(trouble),
        };
        let shown = wrong.map(|trouble| match failed {
            true => trouble.to_string(),
            false => format!("{trouble}; {}", kept(plan, service, &name, &pieces, mode, &trouble)),
        });
        failed = shown.is_some();
        faults.push((format!("{name}, {}", mode.name()), shown));
    }
    Outcome { messages: pieces.len(), tally, faults }
}

/// Writes a failing stream out, shortened unless every try would be a wait, and says where it is.
fn kept(plan: &Plan, service: &Program, name: &str, pieces: &Stream, mode: Mode, trouble: &Trouble) -> String {
    let short = match trouble {
        Trouble::Hung(_) => pieces.clone(),
        Trouble::Failed(_) => shortened(service, pieces, mode),
    };
    let (program, lengths) = (service.path.display(), format!("{} of {} messages", short.len(), pieces.len()));
    match (written(&plan.out.join(name), &short), mode) {
        (Ok((stream, expected)), Mode::Whole) => {
            format!("{lengths}: {program} < {} should give {}", stream.display(), expected.display())
        }
        (Ok((stream, _)), _) => {
            format!("{lengths}: `model try {} --service {program}` gives it in pieces", stream.display())
        }
        (Err(trouble), _) => trouble,
    }
}

pub fn shortened(service: &Program, pieces: &Stream, mode: Mode) -> Stream {
    let fails = |some: &Stream| matches!(fault(service, &some.concat(), mode), Some(Trouble::Failed(_)));
    shorten(pieces, TRIES, fails)
}

/// Writes a stream, and the lines it should get beside it.
pub fn written(name: &Path, stream: &Stream) -> Result<(PathBuf, PathBuf), String> {
    let bytes = stream.concat();
    let (file, expected) = (name.with_extension("stream"), name.with_extension("expected"));
    let folder = name.parent().unwrap_or(name);
    fs::create_dir_all(folder)
        .and_then(|()| fs::write(&file, &bytes))
        .and_then(|()| fs::write(&expected, desk::text(&RIGHT_RULES, &bytes)))
        .map_err(|e| format!("the failing stream could not be written to {}: {e}", folder.display()))?;
    Ok((file, expected))
}
