//! Shows that a fault in an answer is found: each fault is put into one
//! query's answers after another until a solver objects.

use crate::answers::ask;
use crate::fault::{Fault, FAULTS};
use crate::questions::{questions, Kind, Outcome};
use crate::solvers::Solvers;
use judge::random::Random;
use tester::plan::query_of;

pub fn selftest(solvers: &mut Solvers, seed: u64, count: u64) -> Result<(), String> {
    let mut found = 0;
    for fault in FAULTS {
        for kind in fault.found_by() {
            let words = kind.words();
            let tried = tries(solvers, fault, *kind, seed, count)?
                .ok_or(format!("{fault:?}: not found in {count} queries, asking: {words}"))?;
            println!("{fault:?}: found at try {tried}, asking: {words}");
            found += 1;
        }
    }
    println!("{found} times a fault was found, of {} faults", FAULTS.len());
    Ok(())
}

/// How many answers had the fault put into them until one question of this
/// kind was denied.
fn tries(
    solvers: &mut Solvers,
    fault: Fault,
    kind: Kind,
    seed: u64,
    count: u64,
) -> Result<Option<usize>, String> {
    let mut tried = 0;
    for number in 0..count {
        let random = &mut Random::for_number(seed, number);
        let answers = ask(&query_of(seed, number)).ok();
        let Some(faulty) = answers.and_then(|answers| fault.put(random, &answers)) else {
            continue;
        };
        tried += 1;
        for question in questions(&faulty).iter().filter(|question| question.kind == kind) {
            if question.ask(solvers)? == Outcome::Denied {
                return Ok(Some(tried));
            }
        }
    }
    Ok(None)
}
