//! The sweeps of edges.rs through the model and the service.

use super::{Count, Plan};
use crate::compare::{difference, judged, output, Mode};
use crate::desk;
use crate::edges;
use crate::parallel;
use crate::rules::RIGHT_RULES;
use crate::tally::Tally;

pub fn run(plan: &Plan, count: &mut Count) {
    let all = edges::all();
    println!("   {} sweeps with {} messages", all.len(), all.iter().map(|e| e.stream.len()).sum::<usize>());
    let results = parallel::map(all.len(), |index| {
        let edge = &all[index];
        let stream = edge.stream.concat();
        let expected: String = edge.lines.iter().map(|line| format!("{line}\n")).collect();
        let mut tally = Tally::default();
        let model = difference(&expected, &desk::text(&RIGHT_RULES, &stream));
        let mut faults = vec![(format!("{}, model", edge.label), model)];
        if let Ok(service) = &plan.service {
            let mode = if stream.len() < 400 { Mode::Bytes } else { Mode::Pieces(plan.seed) };
            for mode in [Mode::Whole, mode] {
                let fault = match output(service, &stream, mode) {
                    Ok(got) => difference(&expected, &got).or_else(|| judged(&stream, &got, &mut tally)),
                    Err(trouble) => Some(trouble.to_string()),
                };
                faults.push((format!("{}, service, {}", edge.label, mode.name()), fault));
            }
        }
        (faults, tally)
    });
    let mut all_faults = Vec::new();
    for (faults, tally) in results {
        count.lines.add(tally);
        all_faults.extend(faults);
    }
    count.check_all(all_faults);
}
