//! The library beside the second program in one run, and beside the archive of
//! an earlier commit where one is linked: the time of each call by class of
//! query, the stack that a call takes, and the least that a call costs. Nothing
//! is asserted of a time; that all answer the same is. `bench stack LIMIT`
//! measures the stack alone, and fails where a call takes more bytes than that.
//! `bench lemmas SEED COUNT` tells what the lemmas of seeded queries cost, and
//! what they cost with the indices fixed.

mod agreement;
mod cases;
mod classes;
mod clock;
mod contenders;
mod damages;
mod fixed;
mod kinds;
mod least;
mod lemmas;
mod libraries;
mod most;
mod processor;
mod stack;
mod table;
mod timing;

use classes::{classes, Class};
use libraries::{Check, Clauses, Lookup};
use std::env;
use std::process::ExitCode;

fn main() -> ExitCode {
    let words: Vec<String> = env::args().skip(1).collect();
    println!("{}", processor::name());
    let good = match &words.iter().map(String::as_str).collect::<Vec<&str>>()[..] {
        [] => {
            compare(&classes());
            true
        }
        ["stack", limit] => {
            let limit = limit.parse().expect("the limit is a number of bytes");
            most::within(limit, &most::measure(&classes()))
        }
        ["lemmas", seed, count] => {
            let number = |word: &str| word.parse().expect("SEED and COUNT are numbers");
            lemmas::print(number(seed), number(count));
            fixed::print(number(seed), number(count));
            true
        }
        _ => {
            eprintln!("usage: bench [stack LIMIT | lemmas SEED COUNT]");
            false
        }
    };
    if good {
        ExitCode::SUCCESS
    } else {
        ExitCode::FAILURE
    }
}

fn compare(classes: &[Class]) {
    println!(
        "nanoseconds of processor time of one call: the median of {} rounds (least..most)",
        timing::ROUNDS
    );
    println!("a ratio is the median of the rounds' own");
    table::print::<Check>(classes);
    table::print::<Lookup>(classes);
    table::print::<Clauses>(classes);
    least::print();
    most::measure(classes);
}
