//! The seeded tester: compares the product with the second program on random,
//! constructed and damaged queries, over pipes to a child process or in the
//! library that is linked in.

use judge::random::Random;
use judge::{judge, tiny::tiny, ways::ways, Verdict};
use std::process::ExitCode;
use tester::arguments::{self, Arguments};
use tester::library::Library;
use tester::product::{ChildProduct, Product};
use tester::run::Run;
use tester::summary::Summary;
use tester::{exhaustive, selftest, serve};

fn main() -> ExitCode {
    let outcome = arguments::parse(std::env::args().skip(1)).and_then(|arguments| {
        if !arguments.serve && arguments.exhaustive.is_none() {
            println!("seed {} count {}", arguments.seed, arguments.count);
        }
        start(&arguments)
    });
    match outcome {
        Ok(()) => ExitCode::SUCCESS,
        Err(message) => {
            eprintln!("{message}");
            ExitCode::FAILURE
        }
    }
}

fn start(arguments: &Arguments) -> Result<(), String> {
    if arguments.serve {
        serve::serve().map_err(|error| error.to_string())
    } else if arguments.selftest {
        selftest::selftest(arguments.seed, arguments.count)
    } else if let Some(fields) = arguments.exhaustive {
        told(exhaustive::run(fields)?)
    } else if arguments.library {
        compare_with(&mut Library, arguments)
    } else if arguments.product.is_empty() {
        told(compare_with_judge(arguments.seed, arguments.count)?)
    } else {
        compare_with(&mut ChildProduct::start(&arguments.product)?, arguments)
    }
}

fn compare_with(product: &mut dyn Product, arguments: &Arguments) -> Result<(), String> {
    let mut run = Run {
        product,
        seed: arguments.seed,
        count: arguments.count,
        cases: &arguments.cases,
        wide_index: arguments.wide_index,
        summary: Summary::default(),
    };
    let found = run.all()?;
    print!("{}", run.summary);
    if !found.is_empty() {
        return Err(format!("{} differences, seed {}", found.len(), arguments.seed));
    }
    told(run.summary.queries)
}

/// The last line of a run that found no difference. It counts what was
/// compared, and not what was asked for.
fn told(queries: usize) -> Result<(), String> {
    if queries == 0 {
        return Err("nothing was compared".to_string());
    }
    println!("{queries} queries compared, no difference");
    Ok(())
}

/// Without a product: the second program against the judge on tiny queries,
/// half of them at width 1, half at width 2, and half of each with several ways.
fn compare_with_judge(seed: u64, count: u64) -> Result<usize, String> {
    let (mut compared, mut conflicts) = (0, 0);
    for number in 0..count {
        let (width, bits) = if number % 2 == 0 { (1, 14) } else { (2, 17) };
        let generator = if number % 4 < 2 { tiny } else { ways };
        let fields = generator(&mut Random::for_number(seed, number), width, bits);
        let verdict = judge(&fields, width)
            .map_err(|wrong| format!("seed {seed} number {number}: {wrong}\n{fields:?}"))?;
        compared += 1;
        conflicts += usize::from(verdict == Verdict::Conflict);
    }
    println!("judge and second agree on {compared} tiny queries, {conflicts} in conflict");
    Ok(compared)
}
