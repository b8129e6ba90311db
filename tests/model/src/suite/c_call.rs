//! The C call against the model, and wrong checks against the same cases.

use super::{Count, Plan, SHOWN};
use crate::c_driver;
use crate::ccases::{self, Case};
use crate::orders::c_call;
use crate::wrong::checks;
use std::fs;

const RANDOM_CASES: u64 = 30_000;

pub fn run(plan: &Plan, count: &mut Count) {
    let cases = ccases::all(plan.seed, RANDOM_CASES);
    let right: Vec<u32> = cases.iter().map(|case| c_call(&case.rows, &case.order)).collect();
    println!("   {} cases", cases.len());
    if let Ok(driver) = &plan.driver {
        match c_driver::answers(driver, &cases) {
            Ok(answers) => {
                let mut faults = Vec::new();
                let mut shown = 0;
                for (index, ((case, right), got)) in cases.iter().zip(&right).zip(&answers).enumerate() {
                    count.c_answers.count(got.to_string());
                    let fault = (right != got).then(|| {
                        shown += 1;
                        let file = if shown <= SHOWN { written(plan, index, case) } else { String::new() };
                        format!("the answer should be {right} and is {got}; {file}")
                    });
                    faults.push((format!("C call, case {index}"), fault));
                }
                count.check_all(faults);
            }
            Err(trouble) => count.check("C call", Some(trouble)),
        }
    }
    for wrong in checks::WRONG {
        let noticed =
            cases.iter().zip(&right).position(|(case, right)| (wrong.check)(&case.rows, &case.order) != *right);
        if let Some(place) = noticed {
            println!("   noticed by case {:<7}{}", place + 1, wrong.name);
        }
        count.check(wrong.name, noticed.is_none().then(|| "no case notices it".to_string()));
    }
}

/// Writes a failing case as the driver reads it, and says where.
fn written(plan: &Plan, index: usize, case: &Case) -> String {
    let file = plan.out.join(format!("c-{}-{index}.case", plan.seed));
    match fs::create_dir_all(&plan.out).and_then(|()| fs::write(&file, case.bytes())) {
        Ok(()) => format!("the driver can be given {}", file.display()),
        Err(e) => format!("the case could not be written: {e}"),
    }
}
