//! The loop of docs/FORMAT.md, for one problem.

use crate::caller::{Caller, LeftOut};
use crate::problem::{Problem, WIDTH};
use judge::field::{encode, Field};
use judge::interpretation::Interpretation;
use judge::random::Random;
use zunidelo::{check, lookup, Verdict};

/// How the loop ends.
#[derive(Clone, Copy, Debug, PartialEq, Eq)]
pub enum End {
    /// With a guess and arrays that solve the problem.
    Satisfiable,
    /// With a guess that does not meet the constraints.
    NotSolved,
    Unsatisfiable,
    Refused(u8),
    /// A lemma came a second time: without end.
    Repeated,
}

/// Runs the loop; answers how it ends, and after how many lemmas.
pub fn run(problem: &Problem, left_out: LeftOut, random: &mut Random) -> (End, usize) {
    let mut caller = Caller::new(problem, left_out);
    let mut lemmas = Vec::new();
    loop {
        let Some(truths) = caller.solver.solve(&caller.low_variables(), random) else {
            return (End::Unsatisfiable, lemmas.len());
        };
        let guess = caller.guessed(&truths);
        // A part of the terms may do for a conflict; its counts are its own.
        let front = &guess[..random.below(guess.len() + 1)];
        let asked = if is_conflict(front) { front } else { &guess[..] };
        let lemma = match check(&encode(asked)) {
            Err(refusal) => return (End::Refused(refusal.number()), lemmas.len()),
            Ok(Verdict::Consistent { .. }) => {
                let solved = is_solved(problem, &guess);
                return (if solved { End::Satisfiable } else { End::NotSolved }, lemmas.len());
            }
            Ok(Verdict::Conflict { lemma, .. }) => lemma,
        };
        if lemmas.contains(&lemma) {
            return (End::Repeated, lemmas.len());
        }
        lemmas.push(lemma);
        caller.learn(asked);
    }
}

fn is_conflict(fields: &[Field]) -> bool {
    matches!(check(&encode(fields)), Ok(Verdict::Conflict { .. }))
}

/// Whether the guess and the looked-up arrays solve the problem.
fn is_solved(problem: &Problem, guess: &[Field]) -> bool {
    let query = encode(guess);
    let mut model = Interpretation::assigned(guess, WIDTH);
    let is_array = |field: &&Field| {
        matches!(field, Field::Variable | Field::Write { .. } | Field::Conditional { .. })
    };
    for array in 0..guess.iter().filter(is_array).count() as u64 {
        let cell = |index: u32| lookup(&query, array, u64::from(index)).expect("a cell") as u32;
        model.arrays.push((0..1 << WIDTH).map(|index| cell(index) << (WIDTH * index)).sum());
    }
    assert!(model.meets(guess), "the arrays fit the guess");
    problem.met_by(&model)
}
