//! The hand-written trials: their lines hold the model, and the service whole and byte by byte.

use super::{Count, Plan};
use crate::c_driver;
use crate::ccases::Case;
use crate::compare::{difference, judged, output, Mode};
use crate::desk;
use crate::orders::c_call;
use crate::rules::RIGHT_RULES;
use crate::script::{self, Step, Trial};
use std::fs;
use std::path::Path;

type Faults = Vec<(String, Option<String>)>;

pub fn run(plan: &Plan, count: &mut Count) {
    let mut faults = Faults::new();
    for trial in load(plan, count) {
        messages(plan, count, &trial, &mut faults);
        checks(plan, &trial, &mut faults);
    }
    count.check_all(faults);
}

fn load(plan: &Plan, count: &mut Count) -> Vec<Trial> {
    let text = |path: &Path| fs::read_to_string(path).map_err(|e| format!("{} cannot be read: {e}", path.display()));
    let mut trials = Vec::new();
    for name in ["trials.txt", "edges.txt"] {
        match text(&plan.data.join(name)).and_then(|text| script::read(name, &text)) {
            Ok(read) => {
                println!("   {name}: {} trials", read.len());
                trials.extend(read);
            }
            Err(why) => count.check(name, Some(why)),
        }
    }
    let example = text(&plan.rules).map(|text| script::example(&text));
    match example {
        Ok(steps) if steps.is_empty() => count.check("RULES", Some("no example with bytes was found".to_string())),
        Ok(steps) => trials.push(Trial { label: "RULES, the example".to_string(), steps }),
        Err(why) => count.check("RULES", Some(why)),
    }
    trials
}

fn messages(plan: &Plan, count: &mut Count, trial: &Trial, faults: &mut Faults) {
    let mut stream = Vec::new();
    let mut expected = String::new();
    for step in &trial.steps {
        if let Step::Send(bytes, line) = step {
            stream.extend(bytes);
            expected.extend(line.iter().map(|line| format!("{line}\n")));
        }
    }
    if stream.is_empty() && trial.steps.iter().any(|s| matches!(s, Step::Check { .. })) {
        return;
    }
    let model = desk::text(&RIGHT_RULES, &stream);
    faults.push((format!("{}, model", trial.label), difference(&expected, &model)));
    let Ok(service) = &plan.service else { return };
    for mode in [Mode::Whole, Mode::Bytes] {
        let fault = match output(service, &stream, mode) {
            Ok(got) => difference(&expected, &got).or_else(|| judged(&stream, &got, &mut count.lines)),
            Err(trouble) => Some(trouble.to_string()),
        };
        faults.push((format!("{}, service, {}", trial.label, mode.name()), fault));
    }
}

fn checks(plan: &Plan, trial: &Trial, faults: &mut Faults) {
    for step in &trial.steps {
        let Step::Check { rows, order, answer } = step else { continue };
        let wrong = |got: u32| (got != *answer).then(|| format!("the answer should be {answer} and is {got}"));
        faults.push((format!("{}, model's check", trial.label), wrong(c_call(rows, order))));
        let Ok(driver) = &plan.driver else { continue };
        let fault = match c_driver::answers(driver, &[Case { rows: rows.clone(), order: order.clone() }]) {
            Ok(answers) => answers.first().and_then(|&got| wrong(got)),
            Err(trouble) => Some(trouble),
        };
        faults.push((format!("{}, C call", trial.label), fault));
    }
}
