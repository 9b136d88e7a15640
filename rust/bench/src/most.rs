//! The stack of every call that `cases` has: the most of each function, and
//! each call against a limit.

use crate::agreement::{assert_all_agree, earlier_words, Agreed, Alike};
use crate::cases::{cases, Case, Measured};
use crate::classes::Class;
use crate::contenders::{refused_by, told};
use crate::libraries::{Check, Clauses, Lookup};
use crate::stack::stacks;
use std::collections::BTreeSet;
use std::fmt::{Display, Formatter, Result};

/// A call that was measured.
pub struct Call {
    /// The function, what it was asked and what it answered.
    name: String,
    refused: Option<u64>,
    /// How the earlier library answers.
    earlier: Alike,
    /// The bytes that it takes in today's library, then in the earlier one where
    /// that can be asked.
    stacks: Vec<usize>,
}

impl Display for Call {
    fn fmt(&self, formatter: &mut Formatter) -> Result {
        write!(formatter, "{}: {} bytes", self.name, self.stacks[0])
    }
}

/// Measures all calls, and prints the most of each function.
pub fn measure(classes: &[Class]) -> Vec<Call> {
    println!("\nthe most stack of a call, in bytes, over all classes, stored queries and refusals");
    let mut calls = measure_one::<Check>(classes);
    calls.extend(measure_one::<Lookup>(classes));
    calls.extend(measure_one::<Clauses>(classes));
    calls
}

/// The calls of one function. It must have refused by each of its numbers.
fn measure_one<C: Measured>(classes: &[Class]) -> Vec<Call> {
    let calls: Vec<Call> = cases::<C>(classes).iter().map(call::<C>).collect();
    let refusals: BTreeSet<u64> = calls.iter().filter_map(|call| call.refused).collect();
    assert!(refusals.iter().eq(C::REFUSALS), "{} refused by {refusals:?} alone", C::NAME);
    let most = |library: usize| {
        let stacks = calls.iter().filter_map(|call| call.stacks.get(library));
        stacks.max().copied().unwrap_or(0)
    };
    let before = C::BEFORE.map_or(String::new(), |_| format!(", before {}", most(1)));
    println!("{:<10} {:>8}{before}", C::NAME, most(0));
    let earlier: Vec<Alike> = calls.iter().map(|call| call.earlier).collect();
    print!("{}", earlier_words::<C>("calls", &earlier));
    calls
}

fn call<C: Measured>(case: &Case) -> Call {
    let Agreed { answer, earlier } = assert_all_agree::<C>(&case.name, &case.question);
    let name = format!("{} of {}, {}", C::NAME, case.name, told(answer));
    let refused = refused_by(answer);
    assert_eq!(refused, case.refused, "{name}");
    Call { name, refused, earlier, stacks: stacks::<C>(&case.question) }
}

/// Prints the call that takes the most, each that takes more than the limit,
/// and how many there are. Says whether none does.
pub fn within(limit: usize, calls: &[Call]) -> bool {
    let most = calls.iter().max_by_key(|call| call.stacks[0]).expect("a call was measured");
    println!("most: {most}");
    let above: Vec<&Call> = calls.iter().filter(|call| call.stacks[0] > limit).collect();
    for call in &above {
        println!("above {limit}: {call}");
    }
    println!("{} calls measured, {} of them above {limit} bytes", calls.len(), above.len());
    above.is_empty()
}
