//! What docs/FORMAT.md says that a caller owes: a loop that does all of it is
//! right about random problems, and one that leaves a part out is not.

mod caller;
mod demand;
mod problem;
mod renumber;
mod solver;

use caller::LeftOut;
use demand::{run, End};
use judge::random::Random;
use problem::Problem;
use std::collections::BTreeMap;
use std::sync::LazyLock;

const SEED: u64 = 1;
const COUNT: u64 = 400;

/// Which of the problems are satisfiable.
static TRUTHS: LazyLock<Vec<bool>> =
    LazyLock::new(|| (0..COUNT).map(|number| problem(number).0.is_satisfiable()).collect());

/// The numbered problem, and the source of the guesses about it.
fn problem(number: u64) -> (Problem, Random) {
    let mut random = Random::for_number(SEED, number);
    (Problem::random(&mut random), random)
}

/// How many problems of either truth ended how.
#[derive(Default)]
struct Tally {
    ends: BTreeMap<(bool, String), usize>,
    lemmas: usize,
}

impl Tally {
    fn of(left_out: LeftOut) -> Tally {
        let mut tally = Tally::default();
        for (number, truth) in TRUTHS.iter().enumerate() {
            let (problem, mut random) = problem(number as u64);
            let (end, lemmas) = run(&problem, left_out, &mut random);
            *tally.ends.entry((*truth, format!("{end:?}"))).or_default() += 1;
            tally.lemmas += lemmas;
        }
        println!("seed {SEED}, {COUNT} problems, {} lemmas, left out: {left_out:?}", tally.lemmas);
        for ((truth, end), count) in &tally.ends {
            println!("{count:>6}  satisfiable: {truth}, the loop ends: {end}");
        }
        tally
    }

    fn count(&self, truth: bool, end: End) -> usize {
        self.ends.get(&(truth, format!("{end:?}"))).copied().unwrap_or(0)
    }
}

#[test]
fn a_caller_who_owes_nothing_is_right() {
    let tally = Tally::of(LeftOut::Nothing);
    let (satisfiable, unsatisfiable) =
        (tally.count(true, End::Satisfiable), tally.count(false, End::Unsatisfiable));
    assert_eq!((satisfiable + unsatisfiable) as u64, COUNT);
    assert!(satisfiable >= 100 && unsatisfiable >= 100 && tally.lemmas >= 1000);
}

#[test]
fn fresh_variables_that_calls_share_make_satisfiable_problems_unsatisfiable() {
    let tally = Tally::of(LeftOut::Renumbering);
    assert!(tally.count(true, End::Unsatisfiable) > 0);
}

#[test]
fn numbers_of_another_query_make_satisfiable_problems_unsatisfiable() {
    let tally = Tally::of(LeftOut::Mapping);
    assert!(tally.count(true, End::Unsatisfiable) > 0);
}

#[test]
fn a_guess_that_breaks_a_witness_clause_is_refused_by_9() {
    let tally = Tally::of(LeftOut::WitnessClauses);
    let refused = [true, false].map(|truth| tally.count(truth, End::Refused(9)));
    assert!(refused.iter().all(|count| *count > 0));
}

#[test]
fn an_index_that_equalities_share_makes_a_satisfiable_problem_unsatisfiable() {
    let problem = Problem::two_differences();
    assert!(problem.is_satisfiable());
    let end = |left_out: LeftOut| run(&problem, left_out, &mut Random::new(SEED)).0;
    assert_eq!(end(LeftOut::Nothing), End::Satisfiable);
    assert_eq!(end(LeftOut::WitnessIndices), End::Unsatisfiable);
}

#[test]
fn constants_that_are_not_fixed_bring_a_lemma_twice() {
    let tally = Tally::of(LeftOut::Constants);
    let repeated = [true, false].map(|truth| tally.count(truth, End::Repeated));
    assert!(repeated.iter().sum::<usize>() > 0);
}
