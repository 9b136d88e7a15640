//! Lemmas, clauses and models of random queries, confirmed by solvers that
//! are no part of this product: z3 and cadical. The queries are the tester's.

mod answers;
mod arguments;
mod clauses;
mod fault;
mod front;
mod lemma;
mod questions;
mod run;
mod selftest;
mod solvers;
mod terms;

use std::process::ExitCode;

fn main() -> ExitCode {
    match start() {
        Ok(()) => ExitCode::SUCCESS,
        Err(message) => {
            eprintln!("{message}");
            ExitCode::FAILURE
        }
    }
}

fn start() -> Result<(), String> {
    let arguments = arguments::parse(std::env::args().skip(1))?;
    println!("seed {} count {}", arguments.seed, arguments.count);
    let mut solvers = solvers::Solvers::start()?;
    if arguments.selftest {
        selftest::selftest(&mut solvers, arguments.seed, arguments.count)
    } else {
        run::run(&mut solvers, arguments.seed, arguments.count)
    }
}
