//! What the lemmas cost, by today's library and by an earlier one where it is
//! linked: over seeded queries of the tester's kinds, how many comparisons,
//! literals, clauses and bytes their lemmas have in all, and how many lemmas
//! are others. All contenders must agree on every query.

use crate::agreement::{assert_all_agree, lemma_of, Alike};
use crate::contenders::{Contest, Question};
use crate::kinds::{add, print_kinds, Tally};
use crate::libraries::{Check, Clauses, Function, Lookup};
use judge::lemma::Literal;
use tester::rules::byte_count;

/// What lemmas have in all: comparisons of a write's index, literals, clauses
/// and bytes.
type Cost = [u64; 4];

const COLUMNS: [&str; 4] = ["ne", "literals", "clauses", "bytes"];

/// The cost of the lemma of a query in conflict, by one library.
fn cost(check: Check, clauses: Clauses, question: &Question) -> Option<Cost> {
    let lemma = lemma_of(check, question)?;
    let is_comparison = |literal: &&Literal| matches!(literal, Literal::Differ(..));
    let comparisons = lemma.premise.iter().filter(is_comparison).count();
    let (_, [_, _, _, clauses, _]) = clauses.library(&mut question.clone());
    let literals = lemma.premise.len() + 1;
    Some([comparisons as u64, literals as u64, clauses, byte_count(&lemma) as u64])
}

/// The lemmas of some queries, by today's library and by the earlier one.
#[derive(Default)]
struct Totals {
    queries: usize,
    conflicts: usize,
    costs: [Cost; 2],
    /// How many lemmas are others than before, and have then more comparisons,
    /// fewer bytes or more bytes.
    others: usize,
    more_comparisons: usize,
    shorter: usize,
    longer: usize,
}

impl Tally for Totals {
    fn add_query(&mut self, name: &str, query: &[u8]) {
        let question = Question::about(query);
        let earlier = assert_all_agree::<Check>(name, &question).earlier;
        assert_all_agree::<Lookup>(name, &question);
        assert_all_agree::<Clauses>(name, &question);
        let linked = Check::linked().zip(Clauses::linked());
        let costs: Vec<Cost> =
            linked.filter_map(|(check, clauses)| cost(check, clauses, &question)).collect();
        self.queries += 1;
        self.conflicts += usize::from(!costs.is_empty());
        self.others += usize::from(earlier == Alike::ButForTheLemma);
        for (total, cost) in self.costs.iter_mut().zip(&costs) {
            add(total, cost);
        }
        if let [[comparisons, .., bytes], [comparisons_before, .., bytes_before]] = costs[..] {
            self.more_comparisons += usize::from(comparisons > comparisons_before);
            self.shorter += usize::from(bytes < bytes_before);
            self.longer += usize::from(bytes > bytes_before);
        }
    }

    fn add(&mut self, other: &Self) {
        self.queries += other.queries;
        self.conflicts += other.conflicts;
        self.others += other.others;
        self.more_comparisons += other.more_comparisons;
        self.shorter += other.shorter;
        self.longer += other.longer;
        for (total, cost) in self.costs.iter_mut().zip(&other.costs) {
            add(total, cost);
        }
    }

    fn print(&self, name: &str) {
        print!("{name:<22} {:>9}", self.conflicts);
        for column in 0..COLUMNS.len() {
            let before = before_column(self.costs[1][column]);
            print!("  {before}{:>9}", self.costs[0][column]);
        }
        let counts = [self.others, self.more_comparisons, self.shorter, self.longer];
        println!("{}", before_words(&counts));
    }
}

/// What is told of the earlier library alone, where one is linked.
fn before_column(text: impl ToString) -> String {
    Check::BEFORE.map_or(String::new(), |_| format!("{:>9}", text.to_string()))
}

fn before_words(words: &[impl ToString]) -> String {
    words.iter().map(|word| before_column(word.to_string())).collect()
}

fn print_titles() {
    print!("{:<22} {:>9}", "kind of query", "conflicts");
    for column in COLUMNS {
        print!("  {}{column:>9}", before_column("before"));
    }
    println!("{}", before_words(&["others", "more ne", "shorter", "longer"]));
}

/// Prints a line for each kind, of so many queries each, and one for all.
pub fn print(seed: u64, count: u64) {
    println!("the lemmas of {count} queries of each kind, seed {seed}: what they have in all");
    print_titles();
    let all: Totals = print_kinds(seed, count);
    println!("{} queries compared, by every call", all.queries);
}
