//! The whole run: its parts, its counts, and what it prints.

mod c_call;
mod edges;
mod mistakes;
mod services;
mod streams;
mod trials;

use crate::runner::Program;
use crate::tally::{Tally, C_CALL, SERVICE};
use std::path::PathBuf;
use std::time::Instant;

pub struct Plan {
    pub seed: u64,
    /// The service, or why there is none.
    pub service: Result<Program, String>,
    /// The C driver, or why there is none.
    pub driver: Result<PathBuf, String>,
    /// This program, which can stand in for a service, a wrong one too.
    pub own: PathBuf,
    /// The folder with the trials, and the document with the example.
    pub data: PathBuf,
    pub rules: PathBuf,
    /// Where failing streams are written.
    pub out: PathBuf,
}

#[derive(Default)]
pub struct Count {
    pub passed: usize,
    pub failed: usize,
    pub lines: Tally,
    pub c_answers: Tally,
}

/// Shown failures of one part; the rest are only counted.
const SHOWN: usize = 5;

impl Count {
    /// Counts a check, and shows it if it failed.
    pub fn check(&mut self, label: &str, fault: Option<String>) {
        match fault {
            None => self.passed += 1,
            Some(fault) => {
                self.failed += 1;
                println!("  FAILED {label}: {fault}");
            }
        }
    }

    /// Counts many checks and shows the first failures.
    pub fn check_all(&mut self, faults: impl IntoIterator<Item = (String, Option<String>)>) {
        let before = self.failed;
        for (label, fault) in faults {
            if self.failed - before < SHOWN || fault.is_none() {
                self.check(&label, fault);
            } else {
                self.failed += 1;
            }
        }
        let hidden = (self.failed - before).saturating_sub(SHOWN);
        if hidden > 0 {
            println!("  .. and {hidden} more");
        }
    }
}

/// Runs everything and tells whether nothing failed. The last line printed is the count.
pub fn run(plan: &Plan) -> bool {
    let mut count = Count::default();
    println!("seed {}", plan.seed);
    if let Err(why) = &plan.service {
        count.check("the service", Some(why.clone()));
    }
    if let Err(why) = &plan.driver {
        count.check("the C call", Some(why.clone()));
    }
    let parts: [(&str, fn(&Plan, &mut Count)); 6] = [
        ("trials written by hand, and the example of RULES", trials::run),
        ("sweeps over the edges of the rules", edges::run),
        ("random streams", streams::run),
        ("the C call", c_call::run),
        ("broken on purpose: wrong models", mistakes::run),
        ("broken on purpose: services that answer late or lose bytes", services::run),
    ];
    for (name, part) in parts {
        println!("-- {name}");
        let (began, passed, failed) = (Instant::now(), count.passed, count.failed);
        part(plan, &mut count);
        let (passed, failed) = (count.passed - passed, count.failed - failed);
        println!("   {passed} passed, {failed} failed, {:.1} s", began.elapsed().as_secs_f64());
    }
    seen(plan, &mut count);
    println!("{} passed, {} failed", count.passed, count.failed);
    count.failed == 0
}

/// Every answer that can occur must have occurred, and no other.
fn seen(plan: &Plan, count: &mut Count) {
    let tables = [
        ("lines of the service", plan.service.is_ok(), std::mem::take(&mut count.lines), &SERVICE[..]),
        ("answers of the C call", plan.driver.is_ok(), std::mem::take(&mut count.c_answers), &C_CALL[..]),
    ];
    for (what, there, tally, expected) in tables {
        println!("-- {what}, how often each was seen");
        if !there {
            println!("   none, since it is missing");
            continue;
        }
        for label in expected {
            let times = tally.of(label);
            println!("   {label:<12}{times:>10}");
            count.check(&format!("{what}: {label}"), (times == 0).then(|| "never seen".to_string()));
        }
        let strange: Vec<&String> = tally.strange(expected).collect();
        let fault = (!strange.is_empty()).then(|| format!("{strange:?} cannot occur"));
        count.check(&format!("{what}: no other"), fault);
    }
}
