//! A run: the seed's queries one by one, until a solver says otherwise.

use crate::answers::ask;
use crate::questions::{questions, Kind, Outcome};
use crate::solvers::Solvers;
use std::collections::BTreeMap;
use tester::plan::query_of;
use tester::progress::Progress;
use tester::request::hex;

/// Confirms everything; prints how often each kind was, and last how many
/// answers were confirmed.
pub fn run(solvers: &mut Solvers, seed: u64, count: u64) -> Result<(), String> {
    let mut confirmed: BTreeMap<Kind, usize> = BTreeMap::new();
    let mut progress = Progress::begin();
    let mut refused = 0;
    for number in 0..count {
        progress.tell(number as usize);
        let query = query_of(seed, number);
        let Ok(answers) = ask(&query) else {
            refused += 1;
            continue;
        };
        for question in questions(&answers) {
            let outcome = question.ask(solvers)?;
            if outcome != Outcome::Confirmed {
                let (kind, query) = (question.kind.words(), hex(&query));
                println!("{outcome:?} at seed {seed} query {number}: {kind}\nquery {query}");
                return Err("a solver does not confirm the product's answer".to_string());
            }
            *confirmed.entry(question.kind).or_default() += 1;
        }
    }
    for (kind, count) in &confirmed {
        println!("  {count:>6}  {}", kind.words());
    }
    let all: usize = confirmed.values().sum();
    if all == 0 {
        return Err("nothing was confirmed".to_string());
    }
    println!("{all} answers confirmed; {count} queries, {refused} of them refused");
    Ok(())
}
