//! What fixed numbers spare: the same queries with their indices free and fixed,
//! and how many literals, clauses and variables their lemmas have by today's
//! library. The second program must agree on every query. A read that is an
//! index stays one: only terms of tag 01 are fixed.

use crate::agreement::{assert_all_agree, lemma_of};
use crate::cases::stored;
use crate::contenders::Question;
use crate::kinds::{add, print_kinds, Tally};
use crate::libraries::{Check, Clauses, Function, Lookup};
use tester::constants::with_indices_fixed;

/// What lemmas have in all: literals, clauses, and variables, used or not.
type Cost = [u64; 3];

const COLUMNS: [&str; 3] = ["literals", "clauses", "variables"];

/// The lemmas of some queries, with their indices free and fixed.
#[derive(Default)]
struct Totals {
    queries: usize,
    conflicts: usize,
    shorter: usize,
    free: Cost,
    fixed: Cost,
}

impl Tally for Totals {
    /// Adds a query without fixed numbers.
    fn add_query(&mut self, name: &str, query: &[u8]) {
        self.queries += 1;
        let free = cost(name, query);
        let fixed = cost(&format!("{name}, indices fixed"), &with_indices_fixed(query));
        assert_eq!(free.is_some(), fixed.is_some(), "{name}: the verdict does not move");
        if let (Some(free), Some(fixed)) = (free, fixed) {
            self.conflicts += 1;
            self.shorter += usize::from(fixed < free);
            add(&mut self.free, &free);
            add(&mut self.fixed, &fixed);
        }
    }

    fn add(&mut self, other: &Self) {
        self.queries += other.queries;
        self.conflicts += other.conflicts;
        self.shorter += other.shorter;
        add(&mut self.free, &other.free);
        add(&mut self.fixed, &other.fixed);
    }

    fn print(&self, name: &str) {
        print!("{name:<22} {:>9} {:>9}", self.conflicts, self.shorter);
        for (free, fixed) in self.free.iter().zip(&self.fixed) {
            print!("  {free:>9}{fixed:>9}");
        }
        println!();
    }
}

/// What the lemma of a query in conflict has; all contenders must agree on it.
fn cost(name: &str, query: &[u8]) -> Option<Cost> {
    let question = Question::about(query);
    assert_all_agree::<Check>(name, &question);
    assert_all_agree::<Lookup>(name, &question);
    let (_, [_, _, variables, clauses, _]) = assert_all_agree::<Clauses>(name, &question).answer;
    let lemma = lemma_of(Check::TODAY, &question)?;
    Some([lemma.premise.len() as u64 + 1, clauses, variables])
}

fn print_titles(of: &str) {
    print!("{of:<22} {:>9} {:>9}", "conflicts", "shorter");
    for column in COLUMNS {
        print!("  {column:>9}{:>9}", "fixed");
    }
    println!();
}

/// Prints a line for each kind, of so many queries each, and one for all; then
/// a line for each stored query that has no fixed number and a shorter lemma
/// with them.
pub fn print(seed: u64, count: u64) {
    println!("\nthe same queries with their indices free and fixed: what their lemmas have in all");
    print_titles("kind of query");
    let all: Totals = print_kinds(seed, count);
    print_titles("stored query");
    for (name, query) in stored().iter().filter(|stored| !Question::about(&stored.1).has_fixed()) {
        let mut totals = Totals::default();
        totals.add_query(name, query);
        if totals.shorter > 0 {
            totals.print(name);
        }
    }
    println!("{} queries compared both ways, by every call", all.queries);
}

#[cfg(test)]
mod tests {
    use super::*;

    #[test]
    fn a_comparison_that_is_left_out_spares_64_clauses() {
        let mut totals = Totals::default();
        for (name, spared) in [("K1", [1, 64, 32]), ("K4", [1, 64, 1]), ("K6", [2, 128, 2])] {
            let (_, query) = stored().into_iter().find(|stored| stored.0 == name).expect("stored");
            let free = cost(name, &query).expect("a conflict");
            let fixed = cost(name, &with_indices_fixed(&query)).expect("a conflict");
            assert_eq!([0, 1, 2].map(|at| free[at] - fixed[at]), spared, "{name}");
            totals.add_query(name, &query);
        }
        assert_eq!((totals.conflicts, totals.shorter), (3, 3));
    }
}
